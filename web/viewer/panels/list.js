// A list of millions of rows, of which only those that are seen are built.

const ROW = 22, MOST_PIXELS = 8e6, FEW = 4;

export class List {
    // `does`: count(), draw(element, index), pick(index), and current(): the index of the chosen row.
    constructor(element, does) {
        Object.assign(this, { element, does, offset: 0, pool: [] });
        this.rows = document.createElement('div');
        Object.assign(this.rows.style, { position: 'sticky', top: 0, height: 0, overflow: 'visible' });
        this.rows.className = 'rows';
        this.spacer = document.createElement('div');
        element.replaceChildren(this.rows, this.spacer);
        element.addEventListener('scroll', () => this.scrolled());
        element.addEventListener('wheel', event => this.wheel(event), { passive: false });
        element.addEventListener('keydown', event => this.key(event));
        element.addEventListener('click', event => this.click(event));
        new ResizeObserver(() => this.draw()).observe(element);
    }

    get seen() { return this.element.clientHeight; }

    get whole() { return this.does.count() * ROW; }

    // How many pixels of the rows one pixel of the scroll bar moves.
    get ratio() {
        const room = Math.min(this.whole, MOST_PIXELS) - this.seen;
        return room > 0 ? (this.whole - this.seen) / room : 1;
    }

    changed() {
        this.spacer.style.height = `${Math.min(this.whole, MOST_PIXELS)}px`;
        this.moveTo(this.offset);
    }

    moveTo(offset) {
        this.offset = Math.max(0, Math.min(offset, this.whole - this.seen));
        this.ownScroll = Math.round(this.offset / this.ratio);
        this.element.scrollTop = this.ownScroll;
        this.draw();
    }

    scrolled() {
        if (Math.abs(this.element.scrollTop - this.ownScroll) <= 1) return;
        this.ownScroll = this.element.scrollTop;
        this.offset = this.element.scrollTop * this.ratio;
        this.draw();
    }

    // The wheel moves the rows; where there are no more, it moves the page.
    wheel(event) {
        const before = this.offset;
        this.moveTo(this.offset + event.deltaY * (event.deltaMode === 1 ? ROW : 1));
        if (this.offset !== before) event.preventDefault();
    }

    // Brings a row into view.
    reveal(index) {
        if (index < 0) return this.moveTo(0);
        const top = index * ROW;
        if (top < this.offset || top + ROW > this.offset + this.seen) this.moveTo(top - this.seen / 2);
        else this.draw();
    }

    key(event) {
        const page = Math.max(1, Math.floor(this.seen / ROW) - 1), last = this.does.count() - 1;
        const by = { ArrowUp: -1, ArrowDown: 1, PageUp: -page, PageDown: page }[event.key];
        if (by === undefined || last < 0) return;
        event.preventDefault();
        event.stopPropagation();
        this.does.pick(Math.max(0, Math.min(last, this.does.current() + by)));
    }

    click(event) {
        const row = event.target.closest('.row');
        if (row) this.does.pick(row.index);
    }

    draw() {
        const count = this.does.count(), first = Math.floor(this.offset / ROW);
        const wanted = Math.min(count - first, Math.ceil(this.seen / ROW) + 1), current = this.does.current();
        while (this.pool.length < wanted) this.pool.push(this.rows.appendChild(document.createElement('div')));
        this.element.removeAttribute('aria-activedescendant');
        this.pool.forEach((row, k) => {
            row.hidden = k >= wanted;
            if (row.hidden) return;
            const index = first + k;
            row.className = 'row';
            row.index = index;
            row.id = `${this.element.id}-${k}`;
            row.setAttribute('role', 'option');
            row.setAttribute('aria-selected', index === current);
            row.setAttribute('aria-posinset', index + 1);
            row.setAttribute('aria-setsize', count);
            row.style.top = `${index * ROW - this.offset}px`;
            if (index === current) this.element.setAttribute('aria-activedescendant', row.id);
            this.does.draw(row, index);
        });
        if (this.pool.length > wanted + FEW * 10) this.pool.splice(wanted).forEach(row => row.remove());
    }
}

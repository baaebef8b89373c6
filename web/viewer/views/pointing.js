// The pointer on the view: the wheel zooms, dragging moves, a click picks. On a touch screen one finger scrolls the
// page, two fingers zoom and move the view, and a tap picks.

const SLACK = 4;

export class Pointing {
    /**
     * @param {PixelView} view what is moved and zoomed
     * @param {HTMLCanvasElement} canvas where the pointer is: the view's own, or that of a view that follows it
     * @param {{hover: Function, pick: Function}} does receives a place in the image, or null outside of it
     */
    constructor(view, canvas, does) {
        Object.assign(this, { view, canvas, does, pressed: null, fingers: new Map(), pinch: null });
        canvas.addEventListener('wheel', event => this.wheel(event), { passive: false });
        canvas.addEventListener('pointerdown', event => this.press(event));
        canvas.addEventListener('pointermove', event => this.move(event));
        canvas.addEventListener('pointerup', event => this.release(event));
        canvas.addEventListener('pointercancel', event => this.leave(event));
        canvas.addEventListener('pointerleave', () => does.hover(null));
    }

    // A place of the window in the canvas, in its own pixels.
    onCanvas({ clientX, clientY }) {
        const box = this.canvas.getBoundingClientRect(), ratio = this.canvas.width / this.canvas.clientWidth;
        return { x: (clientX - box.x) * ratio, y: (clientY - box.y) * ratio };
    }

    placeOf(event) {
        const at = this.onCanvas(event);
        return this.view.placeAt(at.x, at.y);
    }

    wheel(event) {
        event.preventDefault();
        const at = this.onCanvas(event);
        this.view.zoom(Math.exp(-event.deltaY * 0.0025), at.x, at.y);
    }

    press(event) {
        const { view } = this;
        if (event.pointerType !== 'touch') this.canvas.setPointerCapture(event.pointerId);
        else this.fingers.set(event.pointerId, event);
        if (this.fingers.size === 2) this.pinch = this.span();
        this.pressed = { x: event.clientX, y: event.clientY, wasX: view.x, wasY: view.y, isDrag: this.fingers.size > 1 };
    }

    // The middle and the distance of two fingers.
    span() {
        const [one, other] = [...this.fingers.values()].map(finger => this.onCanvas(finger));
        return { x: (one.x + other.x) / 2, y: (one.y + other.y) / 2, size: Math.hypot(one.x - other.x, one.y - other.y) };
    }

    move(event) {
        if (event.pointerType === 'touch') return this.touch(event);
        const { pressed, view } = this;
        if (pressed) {
            const ratio = this.canvas.width / this.canvas.clientWidth;
            const dx = event.clientX - pressed.x, dy = event.clientY - pressed.y;
            if (Math.hypot(dx, dy) > SLACK) pressed.isDrag = true;
            if (pressed.isDrag) view.moveTo(pressed.wasX + dx * ratio, pressed.wasY + dy * ratio);
        }
        this.does.hover(this.placeOf(event));
    }

    touch(event) {
        if (!this.fingers.has(event.pointerId)) return;
        this.fingers.set(event.pointerId, event);
        if (!this.pinch || this.fingers.size !== 2) return;
        const was = this.pinch, now = this.pinch = this.span(), { view } = this;
        view.zoom(now.size / Math.max(1, was.size), was.x, was.y);
        view.moveTo(view.x + now.x - was.x, view.y + now.y - was.y);
    }

    release(event) {
        const { pressed } = this, place = this.placeOf(event);
        const isTap = pressed && Math.hypot(event.clientX - pressed.x, event.clientY - pressed.y) <= 2 * SLACK;
        this.leave(event);
        if (!isTap || pressed.isDrag || !place) return;
        this.does.hover(place);
        this.does.pick(place);
    }

    leave(event) {
        this.fingers.delete(event.pointerId);
        if (this.fingers.size < 2) this.pinch = null;
        this.pressed = null;
    }
}

// The views in the middle: the shown picture, the drawing area, video memory and a texture page, with what is drawn
// above them. A step chooses the view in which its packet is seen.

import { element } from '../panels/dom.js';
import { hex } from '../reading/names.js';
import { EMPTY, lookOf } from './view_images.js';
import { drawAbove, drawTexels } from './overlay_drawing.js';
import { FrameLook } from './frame_look.js';
import { comparedImage } from '../comparing/compared_image.js';
import { cellsOfCounts } from '../costs/overdraw.js';
import { makeLegend } from '../costs/legend.js';
import { OVERLAYS, makeToggles } from './overlays.js';
import { rowHere } from '../panels/packet_panel.js';
import { PixelView } from './pixel_view.js';
import { PlaceLine } from '../panels/place_line.js';
import { deepPixel } from './pixels.js';
import { Side } from './second_pane.js';
import { TextureChoice } from './texture_choice.js';
import { viewFor } from './view_choice.js';

// Picture and drawing area have one zoom, so that a step from one to the other shows the same place.
const zoomOf = name => name === 'drawn' ? 'picture' : name;

const isDark = cell => (cell & 31) * 2 + (cell >> 5 & 31) * 5 + (cell >> 10 & 31) < 124;

// The same for a colour of 24 bits.
const byteIn = (hex, k) => parseInt(hex.slice(2 * k, 2 * k + 2), 16);
const isDarkHex = hex => 2 * byteIn(hex, 0) + 5 * byteIn(hex, 1) + byteIn(hex, 2) < 992;

export class Views {
    constructor(app) {
        const on = Object.fromEntries(OVERLAYS.map(overlay => [overlay.name, overlay.on]));
        // `isAuto`: whether a step chose this view.
        Object.assign(this, { app, on, name: 'picture', isAuto: false, kept: {}, texel: null });
        this.line = new PlaceLine(this);
        this.choice = new TextureChoice(app, () => { this.draw(); app.tell('texture'); });
        this.frame = new FrameLook(app);
        this.view = new PixelView(element('canvas'), {
            hover: place => { if (place) this.line.point(place); },
            pick: place => this.pick(place),
            moved: place => this.moved(place),
            draw: (context, view) => this.drawAbove(context, view),
        });
        this.side = new Side(this);
        this.listen();
        makeToggles(element('overlays'), this.on, name => this.toggled(name));
        makeLegend(element('legend'));
        this.choose('picture');
    }

    listen() {
        const { app } = this;
        for (const tab of element('tabs').children) tab.addEventListener('click', () => this.choose(tab.dataset.view));
        element('zoom-in').addEventListener('click', () => this.view.zoom(1.5));
        element('zoom-out').addEventListener('click', () => this.view.zoom(1 / 1.5));
        element('fit').addEventListener('click', () => this.view.fit());
        element('wide').addEventListener('click', () => this.setWide(!this.isWide));
        app.on('opened', () => this.opened());
        app.on('arrived', () => { if (this.name === 'picture' && !app.picture) this.choose('memory', true); });
        app.on('moved', () => { if (!this.follow()) this.draw(); this.reveal(); this.followPixel(); });
        app.on('cell', () => this.draw());
        app.on('second', () => { this.side.show(app.beside?.second ?? null); this.draw(); });
        app.on('compared', () => this.draw());
        app.on('goto', () => {
            this.choose(app.difference.view);
            this.view.showBox(app.difference.box);
        });
    }

    opened() {
        Object.assign(this, { kept: {}, texel: null });
        this.line.point(null);
        this.choice.forget();
        this.view.fits = true;
        this.choose('picture');
    }

    // An overlay was turned on or off. What is of the whole frame is seen in the drawing area and in video memory.
    toggled(name) {
        const isOfFrame = name === 'wire' || name === 'overdraw';
        if (isOfFrame && this.on[name] && this.name !== 'memory') this.choose('drawn');
        else this.draw();
    }

    // How wide a television of 4:3 makes the pixels of the picture, and so those of the drawing area.
    get aspect() {
        const { picture } = this.app, isSeen = this.name === 'picture' || this.name === 'drawn';
        element('wide').disabled = !isSeen || !picture;
        return this.isWide && isSeen && picture ? 4 * picture.height / (3 * picture.width) : 1;
    }

    setWide(is) {
        this.isWide = is;
        element('wide').setAttribute('aria-pressed', is);
        this.draw();
    }

    /**
     * Shows another view; each keeps its zoom.
     * @param {string} name one of VIEWS
     * @param {boolean} isAuto whether a step chooses it, and not the reader
     */
    choose(name, isAuto = false) {
        const { view } = this;
        this.isAuto = isAuto;
        if (name === this.name && view.image) return this.draw();
        this.kept[zoomOf(this.name)] = { scale: view.scale, x: view.x, y: view.y, fits: view.fits };
        this.name = name;
        this.line.place = null;
        for (const tab of element('tabs').children) {
            tab.setAttribute('aria-selected', tab.dataset.view === name);
            tab.tabIndex = tab.dataset.view === name ? 0 : -1;
            if (tab.dataset.view === name) element('stage').setAttribute('aria-labelledby', tab.id);
        }
        Object.assign(view, this.kept[zoomOf(name)] ?? { fits: true });
        this.draw();
    }

    // Chooses the view in which a step is seen. Returns whether it chose one.
    follow() {
        const name = viewFor(this.app, this.name, this.isAuto);
        if (name) this.choose(name, name !== 'picture');
        return name !== null;
    }

    /** Shows a place of the image in the middle, at a scale; without a place the chosen cell, or else the middle. */
    lookAt(scale, x, y) {
        const { cell } = this.app, { view, look } = this, pixel = cell && look.pixelAt(cell);
        view.resize();      // a note above the view may have changed its height
        if (x !== undefined) view.lookAt(scale, x, y);
        else if (pixel) view.lookAt(scale, pixel.x + 0.5, pixel.y + 0.5);
        else view.lookAt(scale, view.width / 2, view.height / 2);
    }

    // The pixel of the picture that was chosen may be another cell now: pictures are drawn into two buffers in turn.
    followPixel() {
        const { app, name, view, look } = this, { pixel, cell } = app;
        if (name !== 'picture' || !pixel || !look?.image || pixel.x >= view.width || pixel.y >= view.height) return;
        const { x, y } = look.cellAt(pixel.x, pixel.y);
        if (x !== cell.x || y !== cell.y) app.choose({ x, y }, pixel);
    }

    // After a jump the cursor, or else the packet, is in the view.
    reveal() {
        const { view, app, look } = this, area = this.here?.area;
        if (!app.recording || view.fits || !['packet', 'cell'].includes(app.how)) return;
        const at = view.cursor ?? (area && look.offset?.(area.x1, area.y1));
        if (!at) return;
        view.reveal(at.x, at.y);
        view.draw();
    }

    draw() {
        const { app, view } = this;
        element('empty').hidden = Boolean(app.recording);
        if (!app.recording) return;
        this.here = rowHere(app);
        this.how = this.name === 'texture' ? this.choice.how(this.here) : null;
        this.look = lookOf(this.name, this.seen(), this.how);
        element('texture-bar').hidden = this.name !== 'texture' && !this.choice.isPicking;
        element('overlays').hidden = !element('texture-bar').hidden;
        element('legend').hidden = !this.counts || element('overlays').hidden;
        const image = comparedImage(this) ?? this.look.image;
        element('empty').hidden = Boolean(image);
        if (!image) element('empty').textContent = EMPTY[this.name];
        view.aspect = this.aspect;
        view.cursor = this.cursorOf();
        view.show(image, (x, y) => this.textOf(x, y));
        this.line.draw();
    }

    // The state that is shown; with overdraw, its cells are how often the frame draws them.
    seen() {
        const { app, name, on } = this, { cells, picture, registers } = app;
        this.counts = on.overdraw && (name === 'memory' || name === 'drawn') ? this.frame.counts() : null;
        return { cells: this.counts ? cellsOfCounts(this.counts) : cells, picture, registers };
    }

    cursorOf() {
        const { cell } = this.app;
        if (this.name === 'texture') return this.texel;
        return cell && this.look.pixelAt(cell);
    }

    textOf(x, y) {
        const { picture, registers } = this.app, deep = this.name === 'picture' && deepPixel(picture, registers, { x, y });
        if (deep) return { text: deep.hex, isDark: isDarkHex(deep.hex) };
        const { x: column, y: row, value } = this.look.cellAt(x, y);
        const cell = value ?? this.app.cells[row * 1024 + column];
        return { text: hex(cell, 4), isDark: isDark(cell) };
    }

    pick(place) {
        if (!this.app.recording || !this.look.image) return;
        const { x, y } = this.look.cellAt(place.x, place.y);
        if (this.choice.takes(this.name, { x, y })) return;
        if (this.name === 'texture') this.texel = place;
        this.app.choose({ x, y }, this.name === 'picture' ? place : null);
    }

    // The cursor was moved by keys.
    moved(place) {
        if (!this.app.recording || !this.look.image) return;
        if (this.name === 'texture') this.texel = place;
        this.view.cursor = place;
        this.view.reveal(place.x, place.y);
        this.view.draw();
        this.line.point(place);
        element('spoken').textContent = element('place').textContent;
    }

    drawAbove(context, view) {
        element('zoom').textContent = `${Math.round(view.scale * 100)} %`;
        if (!this.app.recording) return;
        if (this.name === 'texture') drawTexels(context, view, this);
        else drawAbove(context, view, this);
        this.side.draw();
    }
}

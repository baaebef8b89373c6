// An image on a canvas, looked at from near or far, with a grid at high zoom and a cursor that keys move.

import { Pointing } from './pointing.js';

// Scales: from which there is a grid, and a value in each pixel; the greatest and the least; that of one pixel shown alone.
const GRID_FROM = 8, TEXT_FROM = 40, MOST = 128, LEAST = 1 / 8, NEAR = 24;

export class PixelView {
    /**
     * @param {HTMLCanvasElement} canvas
     * @param {object} does hover(place), pick(place), moved(place) by keys, and draw(context, view) for what is above the
     *     image
     * @param {PixelView} leader the view that the pointer moves here, if it is another one
     */
    constructor(canvas, does, leader = null) {
        Object.assign(this, { canvas, does, image: null, width: 0, height: 0, scale: 1, x: 0, y: 0, cursor: null });
        this.source = document.createElement('canvas');
        this.fits = true;
        // How wide a pixel is, of its height.
        this.aspect = 1;
        this.pointing = new Pointing(leader ?? this, canvas, does);
        new ResizeObserver(() => this.resize()).observe(canvas);
    }

    get scaleX() { return this.scale * this.aspect; }

    resize() {
        const { canvas } = this, ratio = devicePixelRatio || 1;
        canvas.width = Math.round(canvas.clientWidth * ratio);
        canvas.height = Math.round(canvas.clientHeight * ratio);
        if (this.fits) this.fit(); else this.draw();
    }

    // Shows an image; `textOf(x, y)` is written into its pixels at the highest zoom.
    show(image, textOf = null) {
        const isOther = image?.width !== this.width || image?.height !== this.height;
        Object.assign(this, { image, textOf, width: image?.width ?? 0, height: image?.height ?? 0 });
        if (image) {
            if (isOther) Object.assign(this.source, { width: image.width, height: image.height });
            this.source.getContext('2d').putImageData(image, 0, 0);
        }
        if (this.fits) this.fit(); else this.draw();
    }

    fit() {
        if (!this.width) return this.draw();
        const { width, height } = this.canvas;
        const scale = Math.min(width / (this.width * this.aspect), height / this.height) * 0.98;
        this.scale = scale >= 1 ? Math.floor(scale * 2) / 2 : scale;
        this.x = (width - this.width * this.scaleX) / 2;
        this.y = (height - this.height * this.scale) / 2;
        this.fits = true;
        this.draw();
    }

    zoom(factor, x = this.canvas.width / 2, y = this.canvas.height / 2) {
        const scale = Math.max(LEAST, Math.min(MOST, this.scale * factor));
        this.x = x - (x - this.x) * scale / this.scale;
        this.y = y - (y - this.y) * scale / this.scale;
        this.scale = scale;
        this.fits = false;
        this.draw();
    }

    moveTo(x, y) {
        Object.assign(this, { x, y, fits: false });
        this.draw();
    }

    /** Returns the place of the image in the middle of the canvas. */
    middle() {
        const { width, height } = this.canvas;
        return { x: (width / 2 - this.x) / this.scaleX, y: (height / 2 - this.y) / this.scale };
    }

    /** Shows a place of the image in the middle, at a scale. */
    lookAt(scale, x, y) {
        this.scale = Math.max(LEAST, Math.min(MOST, scale));
        this.moveTo(this.canvas.width / 2 - x * this.scaleX, this.canvas.height / 2 - y * this.scale);
    }

    /** Shows a box of the image in the middle, as large as half of the canvas, and no larger than is useful. */
    showBox({ x1, y1, x2, y2 }) {
        const { width, height } = this.canvas, [wide, high] = [x2 - x1 + 1, y2 - y1 + 1];
        const scale = Math.min(NEAR, width / (2 * wide), height / (2 * high));
        this.lookAt(scale, (x1 + x2 + 1) / 2, (y1 + y2 + 1) / 2);
    }

    // Brings a place into view.
    reveal(x, y) {
        const { width, height } = this.canvas, at = this.toScreen(x, y);
        if (at.x < 0 || at.x + this.scaleX > width) this.x += width / 2 - at.x;
        if (at.y < 0 || at.y + this.scale > height) this.y += height / 2 - at.y;
    }

    toScreen(x, y) { return { x: this.x + x * this.scaleX, y: this.y + y * this.scale }; }

    // The place of the image at a pixel of the canvas; null outside of the image.
    placeAt(x, y) {
        const place = { x: Math.floor((x - this.x) / this.scaleX), y: Math.floor((y - this.y) / this.scale) };
        return place.x >= 0 && place.y >= 0 && place.x < this.width && place.y < this.height ? place : null;
    }

    // Moves the cursor by keys.
    moveCursor(dx, dy) {
        const from = this.cursor ?? { x: this.width >> 1, y: this.height >> 1 };
        const clamp = (value, size) => Math.max(0, Math.min(size - 1, value));
        this.does.moved({ x: clamp(from.x + dx, this.width), y: clamp(from.y + dy, this.height) });
    }

    draw() {
        const context = this.canvas.getContext('2d'), { width, height } = this.canvas;
        context.clearRect(0, 0, width, height);
        if (!this.image) return;
        context.imageSmoothingEnabled = this.scale < 1 || this.aspect !== 1;
        context.drawImage(this.source, this.x, this.y, this.width * this.scaleX, this.height * this.scale);
        if (this.scale >= GRID_FROM) this.drawGrid(context);
        if (this.scale >= TEXT_FROM && this.textOf) this.drawTexts(context);
        this.does.draw(context, this);
        if (this.cursor) this.drawCursor(context);
    }

    seen() {
        const { width, height } = this.canvas;
        return { x1: Math.max(0, Math.floor(-this.x / this.scaleX)), y1: Math.max(0, Math.floor(-this.y / this.scale)),
            x2: Math.min(this.width, Math.ceil((width - this.x) / this.scaleX)),
            y2: Math.min(this.height, Math.ceil((height - this.y) / this.scale)) };
    }

    drawGrid(context) {
        const { x1, y1, x2, y2 } = this.seen();
        context.beginPath();
        for (let x = x1; x <= x2; x++) this.addLine(context, x, y1, x, y2);
        for (let y = y1; y <= y2; y++) this.addLine(context, x1, y, x2, y);
        Object.assign(context, { strokeStyle: 'rgb(128 128 128 / 45%)', lineWidth: 1 });
        context.stroke();
    }

    addLine(context, x1, y1, x2, y2) {
        const from = this.toScreen(x1, y1), to = this.toScreen(x2, y2);
        context.moveTo(Math.round(from.x) + 0.5, Math.round(from.y) + 0.5);
        context.lineTo(Math.round(to.x) + 0.5, Math.round(to.y) + 0.5);
    }

    drawTexts(context) {
        const { x1, y1, x2, y2 } = this.seen();
        const font = `${Math.min(18, this.scale / 3.4)}px ui-monospace, monospace`;
        Object.assign(context, { font, textAlign: 'center', textBaseline: 'middle' });
        for (let y = y1; y < y2; y++) {
            for (let x = x1; x < x2; x++) {
                const { text, isDark } = this.textOf(x, y), at = this.toScreen(x + 0.5, y + 0.5);
                context.fillStyle = isDark ? '#ffffffcc' : '#000000cc';
                context.fillText(text, at.x, at.y);
            }
        }
    }

    drawCursor(context) {
        const { x, y } = this.toScreen(this.cursor.x, this.cursor.y);
        const [w, h] = [Math.max(this.scaleX, 5), Math.max(this.scale, 5)];
        for (const [width, color] of [[4, '#000'], [2, '#fff']]) {
            Object.assign(context, { strokeStyle: color, lineWidth: width });
            context.strokeRect(x - 1.5, y - 1.5, w + 3, h + 3);
        }
    }
}

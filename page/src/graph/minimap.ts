// The whole graph in a corner, with a window for what is seen. It is there while not all is seen.
import { s } from "../ui/dom";
import { Box, Point } from "./layout";

export class Minimap {
  readonly element = s("svg", { class: "minimap none", "aria-hidden": "true" });
  private readonly boxes = s("g");
  private readonly window = s("rect", { class: "window" });
  private of: Box = { x: 0, y: 0, width: 1, height: 1 };
  private is_empty = true;

  constructor(go: (to: Point) => void) {
    this.element.append(this.boxes, this.window);
    const move = (event: PointerEvent): void => {
      const place = this.element.getBoundingClientRect(), scale = Math.max(this.of.width / place.width, this.of.height / place.height);
      go({ x: this.of.x + (event.clientX - place.left - place.width / 2) * scale, y: this.of.y + (event.clientY - place.top - place.height / 2) * scale });
    };
    this.element.addEventListener("pointerdown", event => { this.element.setPointerCapture((event as PointerEvent).pointerId); move(event as PointerEvent); });
    this.element.addEventListener("pointermove", event => { if ((event as PointerEvent).buttons) move(event as PointerEvent); });
  }

  draw(whole: Box, boxes: readonly Box[]): void {
    this.of = whole;
    this.is_empty = false;
    const corner = (box: Box) => ({ x: box.x - box.width / 2, y: box.y - box.height / 2, width: box.width, height: box.height });
    const { x, y, width, height } = corner(whole);
    this.element.setAttribute("viewBox", `${x} ${y} ${Math.max(1, width)} ${Math.max(1, height)}`);
    // Many boxes are one path: it is only a picture.
    this.boxes.replaceChildren(s("path", { d: boxes.map(box => { const b = corner(box); return `M${b.x} ${b.y}h${b.width}v${b.height}h${-b.width}z`; }).join("") }));
    this.window.setAttribute("stroke-width", String(Math.max(width, height) / 90));
  }
  look(seen: Box): void {
    if (this.is_empty) return;
    const { of } = this, inside = (a: number, wide: number, b: number, wider: number): boolean => a - wide / 2 >= b - wider / 2 - 1 && a + wide / 2 <= b + wider / 2 + 1;
    this.element.classList.toggle("none", inside(of.x, of.width, seen.x, seen.width) && inside(of.y, of.height, seen.y, seen.height));
    for (const [name, value] of Object.entries({ x: seen.x - seen.width / 2, y: seen.y - seen.height / 2, width: seen.width, height: seen.height })) this.window.setAttribute(name, String(value));
  }
  hide(): void {
    this.is_empty = true;
    this.element.classList.add("none");
  }
}

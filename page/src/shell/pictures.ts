// Pictures to keep: the graph and the charts as SVG and PNG, with the colours that are on the screen.
import { h } from "../ui/dom";

/** The page's own rules that a picture needs, with their values in place of names. */
export function picture_style(wanted: RegExp): string {
  const style = getComputedStyle(document.documentElement);
  const rules = [...document.styleSheets].flatMap(sheet => [...sheet.cssRules]).map(rule => rule.cssText).filter(rule => wanted.test(rule)).join("\n");
  return rules.replace(/var\((--[\w-]+)\)/g, (_, name: string) => style.getPropertyValue(name).trim()).replace(/</g, "");
}
export const GRAPH_RULES = /\.(graph|node|edge|arrow|group|stage|name|body|label)/;
export const CHART_RULES = /\.(plot|axis|course|band|under|cursor|tick|span|end|mean|bar|zero|name|value|strong)/;

export function save_blob(name: string, blob: Blob): void {
  const link = h("a", { href: URL.createObjectURL(blob), download: name });
  link.click();
  setTimeout(() => URL.revokeObjectURL(link.href), 10000);
}

/** An SVG text as a PNG of twice the size. */
export async function png_of(svg: string): Promise<Blob> {
  const image = new Image();
  image.src = URL.createObjectURL(new Blob([svg], { type: "image/svg+xml" }));
  await image.decode();
  const paper = h("canvas", {}), pen = paper.getContext("2d")!;
  paper.width = image.width * 2;
  paper.height = image.height * 2;
  pen.fillStyle = getComputedStyle(document.documentElement).getPropertyValue("--canvas");
  pen.fillRect(0, 0, paper.width, paper.height);
  pen.scale(2, 2);
  pen.drawImage(image, 0, 0);
  URL.revokeObjectURL(image.src);
  return new Promise((done, refuse) => paper.toBlob(blob => (blob ? done(blob) : refuse(new Error("the picture is too large for this browser")))));
}

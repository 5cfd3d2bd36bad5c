// While a layout takes its time: how much of it is done, and what stops it.
import { h } from "../ui/dom";
import { count } from "../ui/format";
import type { LayOut } from "./laying";
import type { Layout, Request } from "./layout";

/** After so many milliseconds one is told. */
const SLOW = 250;

export class Progress {
  private readonly bar = h("progress", { max: "1", value: "0", "aria-label": "How much of the graph is laid out" });
  private readonly words = h("span");
  private readonly stop = h("button", { className: "small", onclick: () => this.abort.abort() }, "Stop");
  readonly element = h("div", { className: "laying-out", role: "status", hidden: true }, this.words, this.bar, this.stop);
  private abort = new AbortController();

  /** Lays out in place of what was being laid out. */
  async lay_out(lay_out: LayOut, request: Request): Promise<Layout> {
    this.abort.abort();
    const own = this.abort = new AbortController();
    const slow = setTimeout(() => { this.element.hidden = false; }, SLOW);
    this.words.textContent = `Laying out ${count(request.nodes.length)} events`;
    this.bar.value = 0;
    try {
      return await lay_out(request, { signal: own.signal, progress: done => { if (own === this.abort) this.bar.value = done; } });
    } finally {
      clearTimeout(slow);
      if (own === this.abort) this.element.hidden = true;
    }
  }
}

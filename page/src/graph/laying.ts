// Layouts in the browser: in workers, the parts of a large graph side by side.
import { source } from "../engine/browser";
import type { Layout, Request } from "./layout";
import { LARGE, split } from "./parts";
import { in_rows } from "./rows";

/** `progress` is told how much is done, from 0 to 1. What is stopped is set in rows. */
export interface Told { progress?(done: number): void; signal?: AbortSignal }
export type LayOut = (request: Request, told?: Told) => Promise<Layout>;

interface Job { request: Request; done(layout: Layout): void; is_gone(): boolean }

/** A worker that lays out one thing after the other. */
class Bench {
  private job: Job | null = null;
  private worker: Worker | null = null;
  constructor(private readonly url: string, private readonly next: () => Job | null) {}

  work(): void {
    if (this.job) return;
    do this.job = this.next(); while (this.job?.is_gone());
    if (!this.job) return;
    if (!this.worker) {
      this.worker = new Worker(this.url);
      this.worker.onmessage = ({ data }: MessageEvent<Layout>) => {
        const { job } = this;
        this.job = null;
        job?.done(data);
        this.work();
      };
    }
    this.worker.postMessage(this.job.request);
  }
  /** Ends what nobody waits for any more. */
  tidy(): void {
    if (!this.job?.is_gone()) return;
    this.worker?.terminate();
    this.worker = this.job = null;
    this.work();
  }
}

export function browser_layout(cores = Math.max(1, Math.min(navigator.hardwareConcurrency || 2, 4))): LayOut {
  const waiting: Job[] = [], benches: Bench[] = [], url = source("layout");
  const ask = async (requests: readonly Request[], { progress, signal }: Told): Promise<Layout[]> => {
    const place = await url;
    while (benches.length < Math.min(cores, requests.length)) benches.push(new Bench(place, () => waiting.shift() ?? null));
    let number = 0;
    return Promise.all(requests.map(request => new Promise<Layout>(done => {
      waiting.push({ request, is_gone: () => signal?.aborted ?? false, done: layout => { progress?.(++number / requests.length); done(layout); } });
      for (const bench of benches) bench.work();
    })));
  };
  return (request, told = {}) => {
    const { signal } = told, whole = request.nodes.length <= LARGE ? null : split(request), stopped = new Promise<Layout>(done => {
      if (signal?.aborted) done(in_rows(request));
      signal?.addEventListener("abort", () => { for (const bench of benches) bench.tidy(); done(in_rows(request)); }, { once: true });
    });
    const laid = whole ? ask(whole.parts, told).then(whole.join) : ask([request], told).then(([layout]) => layout);
    return Promise.race([laid, stopped]);
  };
}

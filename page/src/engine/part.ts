import { Lines } from "./lines";

/** Some lines of an output, of which `first` is the number of the first one, from 1. */
export interface Part { first: number; lines: string[] }

/** Takes an output of any length, and keeps the lines from one number to another. */
export class PartReader {
  private count = 0;
  private readonly lines = new Lines(line => { this.count++; if (this.count >= this.part.first && this.count <= this.last) this.part.lines.push(line); });
  private readonly part: Part;
  constructor(first: number, private readonly last: number) { this.part = { first, lines: [] }; }
  take(bytes: Uint8Array): void { this.lines.take(bytes); }
  finish(): Part { return this.part; }
}

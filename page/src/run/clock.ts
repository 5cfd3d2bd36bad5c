// Times as a clock has them, where the planner said what a tick is.
import type { Notes } from "../text/notes";
import { count } from "../ui/format";

/** Seconds of a tick. */
export const UNITS: Readonly<Record<string, number>> = { "": 0, second: 1, minute: 60, hour: 3600, day: 86400 };
const two = (value: number): string => String(value).padStart(2, "0");

/** Seconds after midnight of a clock time as 9, 9:30 or 09:30:15; null for anything else. */
export function seconds_of(typed: string): number | null {
  const found = /^(\d{1,2})(?::(\d{2}))?(?::(\d{2}))?$/.exec(typed.trim());
  return found ? Number(found[1]) * 3600 + Number(found[2] ?? 0) * 60 + Number(found[3] ?? 0) : null;
}

/** How a time in ticks is written: 570 ticks of a minute from 0:00 on are 9:30, after midnight with the day before them. */
export function clock_of({ unit, opens }: Pick<Notes, "unit" | "opens">): (time: number) => string {
  const length = UNITS[unit] ?? 0;
  if (!length) return count;
  const begin = seconds_of(opens) ?? 0;
  return time => {
    const all = begin + time * length, day = Math.floor(all / 86400), rest = all - day * 86400, hours = Math.floor(rest / 3600), minutes = Math.floor(rest / 60) % 60;
    if (unit === "day") return `day ${count(day + 1)}`;
    const clock = `${hours}:${two(minutes)}${unit === "second" ? `:${two(rest % 60)}` : ""}`;
    return day ? `day ${count(day + 1)}, ${clock}` : clock;
  };
}

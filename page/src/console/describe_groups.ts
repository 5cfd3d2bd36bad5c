/** The lines of `describe`: those on the model and its variables first, and then event by event. */
export function groups_of(text: string): { title: string; lines: string[] }[] {
  const [first, ...lines] = text.trimEnd().split("\n"), groups: { title: string; lines: string[] }[] = [{ title: first.replace(/^This is the model (.*)\.$/, "The model $1"), lines: [] }];
  for (const line of lines) {
    const event = /^Event (\w+) takes (no values\.$)?/.exec(line);
    if (event) groups.push({ title: event[1], lines: event[2] ? [] : [line] });
    else groups[groups.length - 1].lines.push(line);
  }
  return groups;
}

// A model in a link: `#model=` and the text as gzip and base64url, and where it has a name `&name=` and that. A shell writes the same by
//
//     printf '#model=%s' "$(gzip -9nc MODEL | base64 -w 0 | tr '+/' '-_' | tr -d =)"

/** No text is longer, and no link is unpacked further: a short link can hold gigabytes. */
export const MOST_TEXT = 4_194_304;
/** Longer links are cut by programs that pass them on. */
export const MOST_LINK = 11_000;

export class BadLink extends Error {}

export async function packed(text: string): Promise<string> {
  const stream = new Blob([text]).stream().pipeThrough(new CompressionStream("gzip"));
  const bytes = new Uint8Array(await new Response(stream).arrayBuffer());
  let letters = "";
  for (let i = 0; i < bytes.length; i += 8192) letters += String.fromCharCode(...bytes.subarray(i, i + 8192));
  return btoa(letters).replaceAll("+", "-").replaceAll("/", "_").replaceAll("=", "");
}

/** Unpacks at most so many bytes; it stops as soon as there are more. */
export async function unpacked(bytes: Uint8Array, most: number): Promise<Uint8Array> {
  const reader = new Blob([bytes]).stream().pipeThrough(new DecompressionStream("gzip")).getReader();
  const pieces: Uint8Array[] = [];
  let size = 0;
  for (;;) {
    const { done, value } = await reader.read() as { done: boolean; value?: Uint8Array };
    if (done || !value) break;
    size += value.length;
    if (size > most) {
      await reader.cancel();
      throw new BadLink(`it unpacks to more than the ${most.toLocaleString("en")} bytes that a text may have`);
    }
    pieces.push(value);
  }
  const all = new Uint8Array(size);
  let at = 0;
  for (const piece of pieces) { all.set(piece, at); at += piece.length; }
  return all;
}

export async function link_of(text: string, name: string): Promise<string> {
  return `#model=${await packed(text)}${name ? `&name=${encodeURIComponent(name)}` : ""}`;
}

/** The text and the name that a link carries, or null where it carries none. */
export async function model_in_link(fragment: string): Promise<{ text: string; name: string } | null> {
  const found = /^#model=([^&]*)(?:&name=([^&]*))?/.exec(fragment);
  if (!found) return null;
  try {
    const letters = atob(found[1].replaceAll("-", "+").replaceAll("_", "/"));
    const bytes = await unpacked(Uint8Array.from(letters, letter => letter.charCodeAt(0)), MOST_TEXT);
    return { text: new TextDecoder("utf-8", { ignoreBOM: true }).decode(bytes), name: found[2] ? decodeURIComponent(found[2]) : "" };
  } catch (problem) {
    throw problem instanceof BadLink ? problem : new BadLink("it isn't whole");
  }
}

// What stands in the page packed, by gzip and base64: the program, its workers, the examples, the licences.

export async function bytes_in(id: string): Promise<ArrayBuffer> {
  const letters = atob(document.getElementById(id)!.textContent!.trim()), packed = Uint8Array.from(letters, letter => letter.charCodeAt(0));
  return new Response(new Blob([packed]).stream().pipeThrough(new DecompressionStream("gzip"))).arrayBuffer();
}
export const text_in = async (id: string): Promise<string> => new TextDecoder().decode(await bytes_in(id));

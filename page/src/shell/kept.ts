// What the browser keeps between visits. It is read as any file is: whatever isn't as it should be is left out.
import { Doc, Design, EMPTY, FIRST_DESIGNS, Version } from "../store/store";
import { FIRST_SETTINGS, TypedSettings } from "../store/settings";
import type { KeptDraft } from "../store/drafts";

const PREFIX = "sigma2.";

export function kept(key: string): string | null {
  try { return localStorage.getItem(PREFIX + key); } catch { return null; }
}
/** There may be no room, or none may be allowed: then nothing is kept. */
export function keep(key: string, value: string): void {
  try { localStorage.setItem(PREFIX + key, value); } catch { /* the page works without */ }
}
export function kept_json(key: string): unknown {
  const text = kept(key);
  if (text === null) return null;
  try { return JSON.parse(text); } catch { return null; }
}

type Fields = Record<string, unknown>;
const is_fields = (value: unknown): value is Fields => typeof value === "object" && value !== null && !Array.isArray(value);
const text_of = (value: unknown, other = ""): string => (typeof value === "string" ? value : other);

function settings_of(value: unknown): TypedSettings {
  const fields = is_fields(value) ? value : {};
  return Object.fromEntries(Object.entries(FIRST_SETTINGS).map(([name, first]) => [name, text_of(fields[name], first)])) as unknown as TypedSettings;
}

function designs_of(value: unknown): readonly Design[] {
  const seen = new Set<number>();
  const designs = (Array.isArray(value) ? value : []).flatMap((each): Design[] => {
    if (!is_fields(each) || typeof each.id !== "number" || typeof each.name !== "string" || typeof each.text !== "string" || seen.has(each.id)) return [];
    seen.add(each.id);
    return [{ id: each.id, name: each.name, text: each.text, taken: each.taken !== false }];
  });
  return designs.length ? designs : FIRST_DESIGNS;
}

const versions_of = (value: unknown): readonly Version[] => (Array.isArray(value) ? value : []).flatMap((each): Version[] =>
  (is_fields(each) && typeof each.name === "string" && typeof each.at === "number" && typeof each.text === "string" ? [{ name: each.name, at: each.at, text: each.text }] : []));

/** A document as it was kept; null where it isn't one. */
export function doc_of(value: unknown): Doc | null {
  if (!is_fields(value) || typeof value.text !== "string") return null;
  const designs = designs_of(value.designs), active = designs.some(each => each.id === value.active) ? Number(value.active) : designs[0].id;
  return {
    ...EMPTY, text: value.text, file: file_name(text_of(value.file)), saved: text_of(value.saved), settings: settings_of(value.settings), designs, active, versions: versions_of(value.versions),
  };
}

/** What was typed into forms and not written yet. */
export function drafts_of(value: unknown): KeptDraft[] {
  return (Array.isArray(value) ? value : []).flatMap(each =>
    (is_fields(each) && typeof each.id === "string" && typeof each.field === "string" && typeof each.value === "string" ? [{ id: each.id, field: each.field, value: each.value }] : []));
}

/** The name of a model's file: it ends in .sigma, so that no link and no file makes Save write something that a machine starts. */
export function file_name(name: string): string {
  const bare = name.replace(/^.*[\\/]/, "").replace(/[\u0000-\u001f\u007f<>:"|?*]/g, "").trim();
  if (!bare) return "";
  return /\.sigma$/i.test(bare) ? bare : `${bare.replace(/\.[A-Za-z0-9]{1,8}$/, "").replace(/\.+$/, "") || "model"}.sigma`;
}

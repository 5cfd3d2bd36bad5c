// Light or dark: as it was chosen here, else as the system has it.
import { kept } from "../shell/kept";

export const first_theme = (): string => kept("theme") ?? (matchMedia("(prefers-color-scheme: dark)").matches ? "dark" : "light");

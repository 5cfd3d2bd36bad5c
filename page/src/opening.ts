// The first script of the page: it unpacks the others once the whole file is read. The policy names their text by its hash too.
import { text_in } from "./engine/packed";
import { first_theme } from "./ui/theme";

const NEEDED = "This browser can't open SIGMA. It takes Chromium 133 or Firefox 134, or a later one.";

document.documentElement.dataset.theme = first_theme();
addEventListener("DOMContentLoaded", async () => {
  try {
    const script = document.createElement("script");
    script.textContent = await text_in("page");
    document.body.append(script);
  } catch {
    document.querySelector(".opening p")!.textContent = NEEDED;
  }
});

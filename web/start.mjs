// Opens the page. `window.page` is for the console, and for the tests.

import { layControls } from "./controls.mjs";
import { page } from "./main.mjs";

window.page = page;
page.open().then(() => {
    layControls();
    document.body.classList.add("ready");
}, (error) => {
    document.getElementById("trouble").hidden = false;
    document.getElementById("trouble").textContent = `The library does not run here: ${error}`;
    throw error;
});

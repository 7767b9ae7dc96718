// How many frames a second the page shows while a table of 4,096 nodes is stepped, in chromium
// without a window. node benches/page.mjs PAGE: PAGE is a page of such a table. Each row is a
// speed: the frames a second that were shown, and the milliseconds that the page needed for one.

import { Browser } from "../tests/browser/browser.mjs";

const SECONDS = 5, LEAST = 30;
const speeds = [["1 step a frame", 5], ["100 steps a frame", 7], ["10,000 steps a frame", 9]];

// Plays for some seconds from the same place, and tells the frames, and the time spent in them.
const measured = (speed) => `new Promise((done) => {
    const { player, run } = page, go = player.go.bind(player), times = [];
    player.stop();
    player.go(run.starts[run.made - 10] + 1);
    player.setSpeed(${speed});
    player.go = (...where) => {
        const from = performance.now();
        go(...where);
        times.push(performance.now() - from);
    };
    player.play();
    const from = performance.now();
    setTimeout(() => {
        player.stop();
        delete player.go;
        times.sort((a, b) => a - b);
        done({ frames: player.frames / (performance.now() - from) * 1000,
            median: times[times.length >> 1], slow: times[Math.floor(times.length * 0.99)],
        });
    }, ${SECONDS * 1000});
})`;

const browser = await Browser.open();
let slow = false;
try {
    const page = await browser.page(process.argv[2]);
    console.log(`${await page.eval("page.cursor.go(1) ?? page.cursor.after.nodes")} nodes; ` +
        `${SECONDS} seconds each; the browser shows at most 60 frames a second`);
    console.log("speed                   frames/s   ms a frame (median)   (99 of 100 below)");
    for (const [name, speed] of speeds) {
        const { frames, median, slow: most } = await page.eval(measured(speed));
        if (frames < LEAST) slow = true;
        console.log(`${name.padEnd(24)}${frames.toFixed(1).padStart(8)}` +
            `${median.toFixed(2).padStart(22)}${most.toFixed(2).padStart(20)}`);
    }
    if (page.faults.length > 0) throw new Error(page.faults.join("; "));
} finally {
    await browser.close();
}
if (slow) {
    console.log(`bench: fewer than ${LEAST} frames a second`);
    process.exitCode = 1;
}

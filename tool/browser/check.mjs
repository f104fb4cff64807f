// Opens the pages of some journals and compares what they show with what the tool prints.
import { execFileSync, spawnSync } from "node:child_process";
import { mkdirSync, writeFileSync } from "node:fs";
import { join, resolve } from "node:path";
import { pathToFileURL } from "node:url";
import { Browser } from "./chromium.mjs";

const tool = resolve("target/debug/zemawulo");
const root = resolve("..");
const made = resolve("target/browser");
mkdirSync(made, { recursive: true });
const journals = ["docs/journals/morning.txt", "docs/journals/stale-read.txt", "docs/journals/given-up.txt", "sessions/worked.in", "sessions/full-year.in"];
const pictures = process.argv.includes("--pictures");

let passed = 0;
let failed = 0;

function same(what, shown, wanted) {
  if (JSON.stringify(shown) === JSON.stringify(wanted)) return void passed++;
  failed++;
  console.log(`${what}: the page shows\n  ${JSON.stringify(shown)}\nand the tool\n  ${JSON.stringify(wanted)}`);
}

// What a command prints, whatever its status.
const printed = (...words) => spawnSync(tool, words, { encoding: "utf8", maxBuffer: 1 << 26 }).stdout;
const linesOf = (text) => text.trimEnd().split("\n");

// The lines of an input as text, without comments.
function textOf(input) {
  if (!input.endsWith(".txt")) return linesOf(printed("text", input));
  const bytes = join(made, "bytes");
  execFileSync(tool, ["bytes", input, "-o", bytes]);
  return linesOf(printed("text", bytes));
}

// The tables of `show`, by title: each row its cells.
function shownTables(text) {
  const tables = {};
  for (const block of text.trimEnd().split("\n\n").slice(1)) {
    const [title, heads, ...rows] = block.split("\n");
    if (heads === undefined) continue;
    const starts = [...heads.matchAll(/\S+(?: \S+)*/g)].map((found) => found.index);
    tables[title] = rows.map((row) => starts.map((start, i) => row.slice(start, starts[i + 1]).trim()));
  }
  return tables;
}

const cells = (id) => `[...document.querySelectorAll("#${id} tbody tr")].map((row) => [...row.cells].map((cell) => cell.textContent))`;
const titles = ["views", "servers", "clients", "messages"];

// The tables of the page at some steps, in one go.
function tablesAt(page, places) {
  const all = titles.map((title) => `${title}: ${cells(title)}`).join(", ");
  return page.value(`${JSON.stringify(places)}.map((k) => { go(k); return { ${all}, premise: k === 0 || step(k).premise }; })`);
}

// The tables of the page at a step against `show` of the run so far.
function compareTables(name, lines, k, shown) {
  const part = join(made, "part.txt");
  const image = join(made, "part.image");
  writeFileSync(part, lines.slice(0, k + 1).join("\n") + "\n");
  execFileSync(tool, ["run", part, "-o", image], { stdio: ["ignore", "ignore", "ignore"] });
  const text = printed("show", image);
  const wanted = shownTables(text);
  for (const title of ["views", "servers"]) same(`${name}, ${title} at step ${k}`, shown[title], wanted[title]);
  // `show` leaves out a client that did nothing yet.
  const clients = (wanted.clients || []).map((row) => row[0]);
  same(`${name}, clients at step ${k}`, shown.clients.filter((row) => clients.includes(row[0])), wanted.clients || []);
  const messages = (wanted.messages || []).map((row) => [...row.slice(0, 6), row[6].startsWith("chain") ? "-" : row[6]]);
  same(`${name}, messages at step ${k}`, shown.messages.reverse(), messages);
  same(`${name}, premise at step ${k}`, shown.premise, text.includes("the premise holds"));
}

async function walk(page, name, last) {
  const place = () => page.value(`document.getElementById("place").textContent`);
  await page.key("Home");
  same(`${name}, Home`, await place(), `step 0 of ${last}`);
  await page.key("ArrowRight");
  await page.key("ArrowRight");
  await page.key("ArrowLeft");
  same(`${name}, arrows`, await place(), `step 1 of ${last}`);
  await page.key("End");
  same(`${name}, End`, await place(), `step ${last} of ${last}`);
  await page.key("PageUp");
  same(`${name}, Page Up`, await place(), `step ${Math.max(0, last - 10)} of ${last}`);
  await page.value(`document.querySelector("[data-go=back]").click()`);
  same(`${name}, button`, await place(), `step ${Math.max(0, last - 11)} of ${last}`);
}

async function check(browser, input) {
  const name = input.split("/").pop();
  console.log(`browser: ${input}`);
  const file = join(made, name + ".html");
  execFileSync(tool, ["page", join(root, input), "-o", file]);
  const lines = textOf(join(root, input));
  const page = await browser.page();
  await page.open(pathToFileURL(file).href, { width: 1280, height: 900, dark: false });
  const run = linesOf(printed("run", join(root, input)));
  same(`${name}, lines`, (await page.value(`document.getElementById("lines").textContent`)).split("\n"), run);
  const [, accepted, refusal] = run[run.length - 1].split(" ").map(Number);
  const last = accepted + (refusal ? 1 : 0);
  const steps = `[...document.querySelectorAll("#steps li")].map((item) => item.childNodes[1].textContent)`;
  same(`${name}, steps`, await page.value(steps), lines.slice(0, last + 1));
  await walk(page, name, last);
  const walked = `Array.from({ length: ${Math.min(last, 60) + 1} }, (_, k) => { go(k); return document.getElementById("line").textContent; })`;
  same(`${name}, each step's line`, await page.value(walked), lines.slice(0, Math.min(last, 60) + 1));
  const places = [...new Set([0, 1, 2, Math.floor(accepted / 3), Math.floor(accepted / 2), accepted - 1, accepted])];
  const tables = await tablesAt(page, places);
  places.forEach((k, i) => compareTables(name, lines, k, tables[i]));
  same(`${name}, as wide as the window`, await page.value("document.documentElement.scrollWidth <= 1280"), true);
  for (const dark of [false, true]) {
    await page.open(`${pathToFileURL(file).href}`, { width: 1280, height: 1500, dark });
    writeFileSync(join(made, `${name}-${dark ? "dark" : "light"}.png`), await page.picture());
  }
  same(`${name}, console`, page.errors, []);
  same(`${name}, network`, page.asked.filter((url) => !url.startsWith("file:") && !url.startsWith("about:")), []);
}

// The stale read and the step that broke the premise are on the page.
async function stale(browser) {
  const page = await browser.page();
  await page.open(pathToFileURL(join(made, "stale-read.txt.html")).href, { width: 1280, height: 900, dark: false });
  const facts = await page.value(`document.getElementById("facts").textContent`);
  for (const words of ["broken by step 42", "fault server=4", "servers 1,4 are faulty", "none from step 46 on", "gave 1000 (stamp 1.1), though 1500"]) {
    same(`stale-read, ${words}`, facts.includes(words), true);
  }
  same("stale-read, bar", await page.value(`document.querySelectorAll("svg .op.lost").length`), 1);
}

async function docs(browser) {
  const folder = join(root, "docs/pictures");
  mkdirSync(folder, { recursive: true });
  const page = await browser.page();
  for (const [name, place] of [["stale-read", 46], ["morning", 49]]) {
    await page.open(pathToFileURL(join(made, `${name}.txt.html`)).href + "#" + place, { width: 1280, height: 830, dark: false });
    writeFileSync(join(folder, name + ".png"), await page.picture());
  }
}

const browser = new Browser();
try {
  for (const journal of journals) await check(browser, journal);
  await stale(browser);
  if (pictures) await docs(browser);
} catch (error) {
  failed++;
  console.log(error.stack);
}
await browser.close();
console.log(`browser: ${passed} passed, ${failed} failed; pictures in tool/target/browser`);
process.exitCode = failed === 0 ? 0 : 1;

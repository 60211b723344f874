// Opens pages in a browser and prints how long it takes, as JSON for `pages.py`: pages.mjs FOLDER NAME..
import fs from 'node:fs';
import {Browser, sleep} from '../tests/browser.mjs';

const [folder, ...names] = process.argv.slice(2);
const browser = new Browser(), RUNS = 5;
const HUB = 'AAQ', DAY = '24MAY25';

// The milliseconds of the main thread so far.
async function busy(tab) {
  const {metrics} = await tab.call('Performance.getMetrics');
  return metrics.find(it => it.name === 'TaskDuration').value * 1000;
}

// The milliseconds of an action, by the clock and of the main thread.
async function timed(tab, action) {
  const before = await busy(tab);
  const clock = await tab.value(`(async () => {
    const begin = performance.now();
    ${action};
    await new Promise(resolve => requestAnimationFrame(() => setTimeout(resolve)));
    return performance.now() - begin;
  })()`);
  return [clock, await busy(tab) - before];
}

const typed = words => `const box = document.querySelector('#words'); box.value = '${words}';
  box.dispatchEvent(new Event('input', {bubbles: true}))`;
const at = hash => `location.hash = '${hash}'; await new Promise(resolve => setTimeout(resolve))`;
const ACTIONS = {
  filter: typed(HUB),
  'filter of a date': typed(`${HUB} ${DAY}`),
  cleared: typed(''),
  'a flight': "flights[3].element.querySelector('button').click()",
  'a day at a hub': at(`#day?date=${DAY}&at=${HUB}`),
  network: at('#network'),
  'sorted by time': at('#timetable?sort=Times'),
};

async function run(name, put) {
  const tab = await browser.tab({date: '2025-05-24T09:20:00Z'});
  await tab.call('Performance.disable');
  await tab.call('Performance.enable', {timeDomain: 'threadTicks'});
  const ready = new Promise(resolve => tab.ready = resolve);
  await tab.call('Page.navigate', {url: `file://${folder}/${name}.html`});
  await ready;
  const thread = await busy(tab);
  const [paint, usable] = await tab.value(`new Promise(resolve => {
    const look = () => {
      const load = performance.getEntriesByType('navigation')[0];
      const paint = performance.getEntriesByName('first-contentful-paint')[0];
      if (paint && load.loadEventEnd) resolve([paint.startTime, load.domContentLoadedEventEnd]);
      else setTimeout(look, 50);
    };
    look();
  })`);
  put('first paint', [paint]);
  put('usable', [usable, thread]);
  await sleep(3000);
  for (const [what, action] of Object.entries(ACTIONS)) put(what, await timed(tab, action));
  if (tab.errors.length > 0) console.error(tab.errors);
}

const pages = {};
for (const name of names) {
  const found = pages[name] = {bytes: fs.statSync(`${folder}/${name}.html`).size};
  const put = (what, times) => found[what] = times.map((time, n) => Math.min(found[what]?.[n] ?? 1e9, Math.round(time)));
  for (let n = 0; n < RUNS; n++) await run(name, put);
}
console.log(JSON.stringify(pages));
await browser.close();

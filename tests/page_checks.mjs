// The checks of `page_in_browser.py`, on the pages that it made: page_checks.mjs PROGRAM FOLDER [PICTURES]
import {execFileSync} from 'node:child_process';
import {Browser, sleep} from './browser.mjs';

const [program, folder, pictures] = process.argv.slice(2);
// A Monday of the season of the samples, at 11:20 in Friedrichshafen.
const DATE = '2027-05-24T09:20:00Z';
const browser = new Browser();
let passed = 0, failed = 0;

function is(name, found, expected) {
  const [a, b] = [found, expected].map(it => JSON.stringify(it));
  if (a === b) { passed++; return; }
  failed++;
  console.log(`${name}:\n  found    ${a?.slice(0, 600)}\n  expected ${b?.slice(0, 600)}`);
}

// The lines that the program prints.
function printed(...words) {
  const out = execFileSync(program, words, {cwd: folder, maxBuffer: 1e9}).toString('latin1');
  return out.trimEnd().split('\n');
}

const opened = async (page, hash = '', options = {}) => {
  const tab = await browser.tab({date: DATE, ...options});
  await tab.open(`file://${folder}/${page}${hash}`);
  return tab;
};
const goTo = async (tab, hash) => { await tab.value(`location.hash = ${JSON.stringify(hash)}`); await sleep(200); };
const texts = (tab, what) => tab.value(
  `[...document.querySelectorAll(${JSON.stringify(what)})].map(e => e.textContent.replace(/\\s+/g, ' ').trim())`);
const count = (tab, what) => tab.value(`document.querySelectorAll(${JSON.stringify(what)}).length`);
const click = async (tab, what) => {
  await tab.value(`document.querySelector(${JSON.stringify(what)}).click()`);
  await sleep(150);
};
const set = (tab, what, value, event) => tab.value(`(() => {
  const box = document.querySelector(${JSON.stringify(what)});
  box.value = ${JSON.stringify(value)};
  box.dispatchEvent(new Event('${event}', {bubbles: true}));
})()`);
const shown = tab => tab.value(`shown.map(f => f.name).join(' ')`);
const search = async (tab, words) => { await set(tab, '#words', words, 'input'); return shown(tab); };
const focused = tab => tab.value('document.activeElement.textContent');

// No script failed, and nothing but the file was asked for.
const quiet = (name, tab) => {
  is(`${name}: errors`, tab.errors, []);
  is(`${name}: requests`, tab.requests.filter(url => !/^(file|data):/.test(url)), []);
};

// ---- the rows

async function dates(page, file) {
  const tab = await opened(page), flown = {};
  for (const line of printed('list', '--dates', file)) {
    const [name, date] = line.split(' ');
    (flown[name] ??= new Set()).add(date);
  }
  const counts = Object.fromEntries(Object.entries(flown).map(([name, held]) => [name, held.size]));
  is(`${page}: dates as list --dates`, await tab.value('Object.fromEntries(all().map(f => [f.name, f.dates]))'), counts);
  quiet(page, tab);
}

// A line of `board` in its fields, and the same of the page.
function boardLine(line) {
  const [time, kind, name, , , , other, there, later = ''] = line.replace(/ +/g, ' ').split(' ');
  return [time, kind, name, other, there, later].join(' ');
}
const boardOf = (date, station) => `[0, 1].flatMap(end => movements(day('${date}'), '${station}', end)
  .filter(row => !row.off).map(({name, l}) => {
    const here = l.local[end], other = l.local[1 - end], later = other.plus - here.plus;
    const time = e => clock(e.t).replace(':', '');
    return [time(here), end ? 'arr' : 'dep', name, other.at, time(other), later ? (later > 0 ? '+' : '') + later : ''].join(' ');
  })).sort()`;

async function boards(page, file, days) {
  const tab = await opened(page);
  const stations = await tab.value('all(), stations()');
  for (const date of days) {
    for (const station of stations) {
      const expected = printed('board', file, station, date).filter(line => line !== 'no flight').map(boardLine).sort();
      is(`${page}: board ${station} ${date}`, await tab.value(boardOf(date, station)), expected);
    }
  }
  quiet(page, tab);
}

// ---- the timetable

async function words() {
  const tab = await opened('desk.html');
  is('all flights', (await shown(tab)).split(' ').length, 42);
  const found = [['341', 'Z7341'], ['kef', 'Z7231 Z7232'], ['FDH-KEF', 'Z7231'], ['kef-', 'Z7232'], ['-KEF', 'Z7231'],
    ['32N pmi', 'Z7341 Z7342'], ['24MAY 103', ''], ['25MAY 103', 'Z7103'], ['24may27 341', 'Z7341'],
    ['BER KEF 17MAY', ''], ['BER KEF 01JUL', 'Z7231'], ['712', 'Z7121 Z7122'], ['XXX', '']];
  for (const [typed, names] of found) is(`search ${typed}`, await search(tab, typed), names);
  is('no flight fits', await tab.value("document.querySelector('.none').hidden"), false);
  await search(tab, 'BER KEF 01JUL');
  is('words in the address', await tab.value('location.hash'), '#timetable?q=BER+KEF+01JUL');
  is('others are hidden', await count(tab, '#timetable article:not([hidden])'), 1);
  is('weekday', await search(tab, 'sun PMI'), 'Z7201 Z7202 Z7341 Z7342');
  is('weekday is pressed', await texts(tab, '.week [aria-pressed=true]'), ['Sun']);
  await click(tab, '.week :last-child');
  is('button takes the word away', await tab.value("document.querySelector('#words').value"), 'PMI');
  await click(tab, '.week button');
  is('button adds the word', await tab.value("document.querySelector('#words').value"), 'PMI mon');
  await set(tab, '#date', '2027-08-01', 'change');
  is('date box adds the date', await tab.value("document.querySelector('#words').value"), 'PMI mon 01AUG27');
  quiet('search', tab);
}

async function sorting() {
  const tab = await opened('desk.html');
  const first = () => tab.value("[...document.querySelectorAll('#timetable article')].slice(0, 3).map(e => e.id)");
  await click(tab, '[data-sort=Times]');
  is('sorted by time', await first(), ['Z7222', 'Z7312', 'Z7341']);
  is('sort in the address', await tab.value('location.hash'), '#timetable?sort=Times');
  await click(tab, '[data-sort=Flight]');
  is('sorted by flight', (await first())[0], 'Z7101');
  quiet('sorting', tab);
}

async function flights() {
  const tab = await opened('desk.html');
  is('line of a flight', await texts(tab, '#Z7301>:is(h3,span)'),
    ['Z7301', 'HAM\u2192LHR', '08:10 \u2013 08:50', '123456\u00b7', 'E90', '29MAR \u2013 30OCT186']);
  is('a dot for each other itinerary', await count(tab, '#Z7301 .dot'), 2);
  is('text of the strip', await tab.value("document.querySelector('#Z7301 .st').getAttribute('aria-label')"),
    '186 dates, 29MAR27 to 30OCT27, 3 different');
  is('lanes of the strip', await tab.value("document.querySelector('#Z7103 path').getAttribute('d')"),
    'M1 1H8M1 4H8M1 7H8M1 10H8M1 13H8M0 19H8M8 4H10M8 7H10M8 10H10M8 13H10M8 19H10M10 1H32M10 4H32M10 7H32M10 10H32M10 13H32M10 19H31');
  await goTo(tab, '#Z7401');
  is('legs', await texts(tab, '#Z7401 .t tr:nth-child(2)'),
    ['FDH T121:30DXB T105:40+106:10 32N JCYBMHQ C16Y148', 'FDH22:30DXB06:40+106:10 320 JCYBMHQ C12Y150']);
  is('periods', await texts(tab, '#Z7401 .per span'),
    ['30MAR27 \u2013 11JUN27 Tue Fri', '18JUN27 \u2013 29OCT27 Tue Fri', 'Tue 15JUN27']);
  await goTo(tab, '#Z7301');
  const legs = await texts(tab, '#Z7301 .t tr:nth-child(2)');
  is('another passenger time', legs[1].includes('passengers 0840'), true);
  await goTo(tab, '#Z7341?mark=03JUL27+29AUG27+.....67');
  is('a flight and dates by address', await tab.value('[state.view, document.querySelector("article.open").id]'), ['timetable', 'Z7341']);
  const cells = await Promise.all(['.mark', '.months .k0', '.months .k1'].map(what => count(tab, what)));
  is('dates of the months', cells, [18, 129, 13]);
  is('every button, link and box has a name', await tab.value(`[...document.querySelectorAll('button,a,input,select,[role=img]')]
    .filter(e => !(e.textContent.trim() || e.getAttribute('aria-label'))).map(e => e.outerHTML)`), []);
  quiet('flights', tab);
}

async function keys() {
  const tab = await opened('desk.html');
  await tab.key('/');
  is('/ goes to the search', await tab.value('document.activeElement.id'), 'words');
  for (const key of 'kef') await tab.key(key);
  is('typed words', await shown(tab), 'Z7231 Z7232');
  for (const name of ['Z7231', 'Z7232']) {
    await tab.key('ArrowDown');
    is('Down', await focused(tab), name);
  }
  await tab.key('Enter');
  is('Enter opens', await texts(tab, 'article.open h3'), ['Z7232']);
  is('open flight in the address', await tab.value('location.hash'), '#timetable?q=kef&open=Z7232');
  is('focus stays', await focused(tab), 'Z7232');
  await tab.key('Enter');
  is('Enter closes', await count(tab, 'article.open'), 0);
  await tab.key('ArrowUp');
  is('Up', await focused(tab), 'Z7231');
  await tab.key('/');
  await tab.key('Escape');
  is('Esc empties', await tab.value("[shown.length, document.querySelector('#words').value, document.activeElement.tagName]"),
    [42, '', 'BODY']);
  await tab.key('2');
  is('2 is the day', await texts(tab, 'section:not([hidden]) .pick h2 small'), ['FDH, local times']);
  const moved = [['ArrowRight', '25MAY27'], ['ArrowLeft', '24MAY27'], ['ArrowLeft', '23MAY27'], ['t', '24MAY27']];
  for (const [key, date] of moved) {
    await tab.key(key);
    is(key, await tab.value('state.date'), date);
  }
  quiet('keys', tab);
}

// Many flights are laid out in parts: in the end it is those that fit the words, in order.
const VISIBLE = "[...document.querySelectorAll('#timetable article')].filter(e => e.checkVisibility()).map(e => e.id).join(' ')";
const laidOut = tab => tab.value(`new Promise(resolve => {
  const look = () => laid < shown.length ? setTimeout(look, 50) : resolve(${VISIBLE});
  look();
})`);

async function parts() {
  const tab = await opened('weeks.html');
  const all = await laidOut(tab);
  is('all flights are laid out', [all.split(' ').length, all], [1240, await shown(tab)]);
  for (const typed of ['12', '24MAY25', '7 mon', '12']) {
    const fit = await search(tab, typed);
    is(`those that fit ${typed}`, await laidOut(tab), fit);
  }
  is('some fit', (await shown(tab)).split(' ').length < 1240, true);
  is('all again', await search(tab, '') && await laidOut(tab), all);
  await click(tab, '[data-sort=Times]');
  const sorted = await laidOut(tab);
  is('all in another order', [sorted, sorted === all], [await shown(tab), false]);
  quiet('parts', tab);
  const last = all.split(' ').at(-1), other = await opened('weeks.html', `#${last}`);
  is('the last flight by address', await other.value(`(() => {
    const box = document.getElementById('${last}').getBoundingClientRect();
    return [box.height > 100, box.top > 0 && box.top < innerHeight];
  })()`), [true, true]);
  const print = await opened('weeks.html');
  is('all flights are printed', await print.value(`(dispatchEvent(new Event('beforeprint')), ${VISIBLE})`), all);
  is('and filled', await print.value('flights.every(f => f.filled)'), true);
  quiet('printed', print);
}

// ---- day, network, addresses

async function day() {
  const tab = await opened('desk.html', '#day');
  is('today at the hub', await tab.value('[state.date, state.at]'), ['24MAY27', 'FDH']);
  is('the red lines', await texts(tab, 'tr.now'), ['11:20', '11:20']);
  await set(tab, 'select', 'LHR', 'change');
  is('station in the address', await tab.value('location.hash'), '#day?date=24MAY27&at=LHR');
  await set(tab, 'select', '', 'change');
  is('all stations', await tab.value('location.hash'), '#day?date=24MAY27&at=');
  is('all flights of a date', [await count(tab, '.halves'), await count(tab, '#day .row:not(.off)')],
    [0, await tab.value("flights.filter(f => f.on(day('24MAY27'))).length")]);
  await tab.value("document.querySelector('[data-go=\"1\"]').focus()");
  await click(tab, '[data-go="1"]');
  is('focus stays', await tab.value('[state.date, document.activeElement.dataset.go]'), ['25MAY27', '1']);
  quiet('day', tab);
  const utc = await opened('utc.html', '#day', {date: '2028-05-24T09:20:00Z'});
  is('nearest date', await utc.value('state.date'), await utc.value('spell(LAST)'));
  quiet('day in UTC', utc);
  const weeks = await opened('weeks.html', '#day?date=24MAY25&at=');
  is('first 300', await count(weeks, '#day .row'), 300);
  await click(weeks, '#day .none a');
  is('all', await count(weeks, '#day .row'), await weeks.value("flights.filter(f => f.on(day('24MAY25'))).length"));
  quiet('day of many flights', weeks);
}

async function network() {
  const tab = await opened('desk.html', '#network'), counts = {};
  const lines = printed('list', '--dates', 'fdh.desk').map(line => line.split(' '));
  for (const line of lines) counts[line[3]] = (counts[line[3]] ?? 0) + 1;
  const weeks = 223 / 7, aWeek = n => (n / weeks).toFixed(n < weeks * 10 ? 1 : 0);
  is('figures', await texts(tab, '.figures b'), ['42', '21', aWeek(lines.length), '28MAR27', '05NOV27']);
  const rows = `Object.fromEntries([...document.querySelector('#network .t').rows].slice(1)
    .map(row => [0, 3].map(n => row.cells[n].textContent.trim())))`;
  const expected = Object.entries(counts).sort((a, b) => b[1] - a[1]).map(([name, n]) => [name, aWeek(n)]);
  is('departures by station', await tab.value(rows), Object.fromEntries(expected));
  quiet('network', tab);
}

async function addresses() {
  const tab = await opened('desk.html');
  await goTo(tab, '#network');
  await goTo(tab, '#day?date=24MAY27&at=FDH');
  await tab.value('history.back()');
  await sleep(200);
  is('back', await tab.value('state.view'), 'network');
  const season = await opened('season.html', '#messages');
  is('a view that is not there', [await season.value('state.view'), await texts(season, 'nav a')],
    ['timetable', ['Timetable', 'Day', 'Network']]);
  const other = await opened('desk.html', '#timetable?q=kef&open=Z7232');
  is('an address shows the same', [await shown(other), await texts(other, 'article.open h3')], ['Z7231 Z7232', ['Z7232']]);
  quiet('addresses', tab);
}

// ---- carried bytes, no script

async function hostileBytes() {
  const tab = await opened('hostile.html');
  await tab.value('flights.forEach(f => toggle(f))');
  await goTo(tab, '#day?date=24MAY27&at=FDH');
  await goTo(tab, '#network');
  is('no markup of data', [await count(tab, 'img,script,s'), await count(tab, 'section'), await count(tab, 'b>b')], [2, 3, 0]);
  is('title', await tab.value('document.title'), 'Z7 <s>, local times');
  is('aircraft types', await tab.value('[...new Set(flights.flatMap(f => f.its.flatMap(i => i.types)))].sort()'),
    ['"\'>', '&lt', '<b>', '\ufffd\ufffd<'].sort());
  is('flights', await tab.value('flights.length'), 41);
  quiet('hostile bytes', tab);
  const desk = await opened('hostile_desk.html', '#changes');
  const lines = printed('diff', 'hostile.ssim', 'hostile.desk').slice(1, 3);
  is('no markup in a change', await texts(desk, '#changes pre'), [lines.join(' ')]);
  is('aircraft type of a change', await desk.value('changes[0].before[0].type'), lines[0].slice(-3));
  await goTo(desk, '#messages');
  is('no markup in a message', await texts(desk, '#messages pre'), [printed('texts', 'hostile.desk').join(' ').replace(/ +/g, ' ')]);
  await goTo(desk, '#day?date=24MAY27&at=FDH');
  is('no markup of messages', [await count(desk, 'img,script,s'), await count(desk, 'section'), await count(desk, 'b>b')], [2, 5, 0]);
  quiet('hostile messages', desk);
}

// The periods and the different legs of each flight, of lines of a flight's name or key and what it has.
function partsOf(lines) {
  const parts = {};
  for (const [name, line] of lines) {
    const flight = parts[name] ??= {periods: [], legs: []};
    if (line.length === 23) flight.periods.push(line);
    else if (line.length > 23) flight.legs.push(line.slice(0, 51));
  }
  for (const flight of Object.values(parts)) flight.legs = [...new Set(flight.legs)].sort();
  return parts;
}
function listed(file) {
  let name;
  return printed('list', file).map(line => {
    if (!line.startsWith(' ')) name = line.split(' ')[0];
    return [name, line.startsWith(' ') ? line.trim() : line.slice(name.length + 1)];
  });
}

async function withoutScript() {
  const tab = await opened('desk.html', '', {script: false});
  const {root} = await tab.call('DOM.getDocument', {depth: 0});
  const nodes = async selector => (await tab.call('DOM.querySelectorAll', {nodeId: root.nodeId, selector})).nodeIds;
  is('articles without script', [(await nodes('#timetable article')).length, (await nodes('#timetable pre')).length], [42, 42]);
  const lines = [];
  for (const nodeId of await nodes('#timetable article')) {
    const {outerHTML} = await tab.call('DOM.getOuterHTML', {nodeId});
    const [, name, rows] = outerHTML.match(/id="(\w+)"[^]*<pre>\n?([^]*)\n<\/pre>/);
    lines.push(...rows.split('\n').map(row => [name, row.slice(row.indexOf(' ') + 1)]));
  }
  is('periods and legs as list', partsOf(lines), partsOf(listed('fdh.desk')));
  const changes = printed('diff', 'season.ssim', 'fdh.desk').slice(0, -1).filter(line => line.startsWith('Z'));
  const messages = printed('texts', 'fdh.desk').filter(line => /^(SSM|ASM)$/.test(line));
  is('changes and messages without script', [(await nodes('#changes pre')).length, (await nodes('#messages pre')).length],
    [changes.length, messages.length]);
  const hidden = [];
  for (const nodeId of await nodes('pre')) {
    const box = await tab.call('DOM.getBoxModel', {nodeId}).catch(() => undefined);
    if (!(box?.model.height > 0)) hidden.push(nodeId);
  }
  is('all is in sight', hidden, []);
  quiet('without script', tab);
}

// ---- changes and messages

// The changes of a page as `diff` prints them, before the script dresses them.
async function changesAsDiff(page, from, to) {
  const tab = await opened(page);
  const lines = await tab.value("changes.flatMap(c => [[c.name, ...c.mark.split('+')].join(' '), ...c.lines])");
  is(`${page}: changes as diff`, lines, printed('diff', from, to).slice(0, -1));
  quiet(page, tab);
}

// The messages of a page as `texts` and `findings` print them.
async function messagesAsPrinted(page, file) {
  const tab = await opened(page);
  const all = await tab.value("[...document.querySelectorAll('#messages pre')].map(e => e.textContent).join('\\n').trimEnd().split('\\n')");
  is(`${page}: messages as texts`, all, printed('texts', file));
  const found = await tab.value(`[...document.querySelectorAll('#messages li')].map(li => {
    const words = li.textContent.trim().split(' '), article = li.closest('article');
    const number = [...article.querySelectorAll('li')].indexOf(li) + 1;
    return [article.querySelector('h3').textContent, number, words[0], words[1], ...words.slice(5)].join(' ');
  })`);
  is(`${page}: sub-messages as findings`, found, printed('findings', file));
  const marks = await tab.value("[...document.querySelectorAll('#messages article')].map(e => [e.id, e.querySelector('h3').textContent])");
  is(`${page}: marks`, marks.filter(([id, name]) => id !== name.replace(/ /g, '-')), []);
  const ids = await tab.value("[...document.querySelectorAll('[id]')].map(e => e.id)");
  is(`${page}: each id once`, new Set(ids).size, ids.length);
  quiet(page, tab);
}

async function printedSections() {
  await changesAsDiff('desk.html', 'season.ssim', 'fdh.desk');
  await changesAsDiff('gone.html', 'season.ssim', 'gone.desk');
  await changesAsDiff('between.html', 'fdh.desk', 'gone.desk');
  await changesAsDiff('utc_desk.html', 'utc.ssim', 'utc.desk');
  await messagesAsPrinted('desk.html', 'fdh.desk');
  await messagesAsPrinted('between.html', 'gone.desk');
  await messagesAsPrinted('utc_desk.html', 'utc.desk');
  const same = await opened('same.html');
  is('no changes', await texts(same, 'nav a'), ['Timetable', 'Day', 'Messages', 'Network']);
  quiet('no changes', same);
}

async function changes() {
  const tab = await opened('desk.html', '#changes');
  is('changes', await tab.value("changes.map(c => c.name + ' ' + c.what)"), ['Z7103 cancelled', 'Z7104 cancelled', 'Z7121 times',
    'Z7122 times', 'Z7231 route', 'Z7301 times', 'Z7311 cancelled', 'Z7312 cancelled', 'Z7341 aircraft', 'Z7341 cancelled',
    'Z7341 aircraft', 'Z7342 aircraft', 'Z7401 times, aircraft', 'Z7501 times', 'Z7601 new', 'Z7601 new']);
  is('words that differ', await tab.value("[...changes.find(c => c.name === 'Z7231').element.querySelectorAll('pre b')].map(e => e.textContent)"),
    ['HAM', '0945', '0945', 'BER', '1000', '1000', 'HAM', '1040', '1040', '1200', '1200', 'BER', '1050', '1050', '1225', '1225']);
  await goTo(tab, '#day?date=24MAY27&at=FDH');
  is('cancelled', (await texts(tab, 'tr.off')).map(row => row.replace(/ /g, '')), ['17:30Z7103HAM19:20AT7cancelled']);
  await goTo(tab, '#day?date=05JUL27&at=FDH');
  is('was', (await texts(tab, '.note')).filter(Boolean),
    ['was HAM', 'was 10:40', 'was 14:50', 'changed: route', 'changed: times', 'changed: times']);
  await goTo(tab, '#day?date=05JUL27&at=HAM');
  is('other route', (await texts(tab, 'tr.off')).map(row => row.replace(/ /g, '')),
    ['10:40Z7231KEF12:00320otherroute', '09:45Z7231FDH08:20320otherroute']);
  quiet('changes', tab);
  const gone = await opened('gone.html', '#Z7101D');
  is('a flight that is gone', [await gone.value('state.view'), await texts(gone, '#changes article:not([hidden]) h3 a')],
    ['changes', ['Z7101D']]);
  await goTo(gone, '#day?date=18JUN27&at=FDH');
  is('gone on its day', [await count(gone, 'tr.off'), await count(gone, '.row.off')], [1, 2]);
  quiet('gone', gone);
  const utc = await opened('utc_desk.html', '#day?date=24MAY27&at=FDH');
  is('was, in UTC', (await texts(utc, '.note')).filter(Boolean), ['was 08:30', 'changed: times']);
  quiet('changes in UTC', utc);
}

async function messages() {
  const tab = await opened('desk.html', '#messages');
  is('views', await texts(tab, 'nav a'), ['Timetable', 'Day', 'Changes', 'Messages', 'Network']);
  const texts_ = printed('texts', 'fdh.desk').filter(line => /^(SSM|ASM)$/.test(line));
  is('messages', await count(tab, '#messages article:not([hidden])'), texts_.length);
  await set(tab, '#words', 'absent', 'input');
  is('absent', await texts(tab, '#messages article:not([hidden]) h3'), ['SSM 16MAR27 00001 001']);
  await click(tab, '#messages article:not([hidden]) li a:nth-of-type(2)');
  is('from a message to dates', await tab.value('[state.view, state.open, state.mark]'),
    ['timetable', 'Z7341', '03JUL27 29AUG27 .....67']);
  is('cancelled dates', await count(tab, '.months s'), 13);
  await click(tab, '.facts a[href^="#messages"]');
  is('and back', await tab.value('[state.view, state.at]'), ['messages', 'SSM-12MAR27-00007-001']);
  await goTo(tab, '#messages?at=SSM-20MAR27-00001-001');
  is('a message in sight', await tab.value(`(() => {
    const found = document.querySelector('article.at'), box = found.getBoundingClientRect();
    return [found.id, box.top > 0 && box.top < innerHeight];
  })()`), ['SSM-20MAR27-00001-001', true]);
  await goTo(tab, '#Z7401');
  is('messages of a flight', await texts(tab, '#Z7401 .facts a'), ['1 change', 'ASM 10JUN27 00001 001', 'ASM 11JUN27 00001 001']);
  quiet('messages', tab);
}

// ---- pictures

const PICTURES = [['desk.html', '', 'page.png'], ['desk.html', '#Z7301', 'page_flight.png'],
  ['desk.html', '#day?date=24MAY27&at=FDH', 'page_day.png'], ['desk.html', '#network', 'page_dark.png', {dark: true}],
  ['desk.html', '', 'page_phone.png', {width: 390, height: 844, scale: 2, mobile: true}],
  ['desk.html', '#changes', 'page_changes.png'], ['desk.html', '', 'page_without_script.png', {script: false}],
  ['desk.html', '#messages', 'page_messages.png'], ['weeks.html', '', 'page_weeks.png', {date: '2025-05-24T09:20:00Z'}],
  ['desk.html', '#Z7341', 'page_print.png', {print: true, width: 1050, height: 740}]];

async function draw() {
  for (const [page, hash, name, options] of PICTURES) {
    const tab = await opened(page, hash, options);
    await tab.picture(`${pictures}/${name}`);
  }
}

async function main() {
  await dates('desk.html', 'fdh.desk');
  await dates('utc.html', 'utc.ssim');
  const days = ['28MAR27', '17MAY27', '24MAY27', '15JUN27', '16JUN27', '03JUL27', '29OCT27', '05NOV27'];
  await boards('desk.html', 'fdh.desk', days);
  await boards('utc.html', 'utc.ssim', ['28MAR27', '29MAR27', '15JUN27', '16JUN27', '30OCT27']);
  const checks = [words, sorting, flights, keys, parts, day, network, addresses, hostileBytes, withoutScript, printedSections, changes, messages];
  for (const check of checks) {
    try {
      await check();
    } catch (error) {
      failed++;
      console.log(`${check.name}: ${error.stack}`);
    }
  }
  if (pictures) await draw();
}

await main().finally(() => browser.close());
console.log(`${passed} passed, ${failed} failed`);
process.exit(failed ? 1 : 0);

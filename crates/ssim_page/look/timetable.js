<script>
'use strict';

// ---- Tools

const $ = (what, within = document) => within.querySelector(what);
const $$ = (what, within = document) => [...within.querySelectorAll(what)];

// h`..` is markup: each value is escaped, unless it is markup itself.
class Markup {
  constructor(text) { this.text = text; }
  toString() { return this.text; }
}
const NAMED = /[&<>"']/g;
function put(value) {
  if (value instanceof Markup) return value.text;
  if (Array.isArray(value)) return value.map(put).join('');
  if (value == null || value === false) return '';
  return String(value).replace(NAMED, c => `&#${c.charCodeAt(0)};`);
}
const h = (parts, ...values) =>
  new Markup(parts.reduce((made, part, n) => made + put(values[n - 1]) + part));
const add = (element, markup) => element.insertAdjacentHTML('beforeend', markup);

// What a function makes of a key, made once.
function known(make) {
  const held = new Map();
  return key => {
    if (!held.has(key)) held.set(key, make(key));
    return held.get(key);
  };
}
const many = (n, what) => `${n.toLocaleString('en')} ${what}${n === 1 ? '' : 's'}`;
const two = n => String(n).padStart(2, '0');
const clock = minutes => `${two(Math.floor(minutes / 60))}:${two(minutes % 60)}`;
const compare = (a, b) => a < b ? -1 : +(a > b);

// A day is a number: 0 is 01JAN70, a Thursday.
const MONTHS = 'JAN FEB MAR APR MAY JUN JUL AUG SEP OCT NOV DEC'.split(' ');
const WEEK = 'Mon Tue Wed Thu Fri Sat Sun'.split(' ');
const MILLISECONDS = 864e5;
const day = known(text => {
  const [date, month, year] = [text.slice(0, 2), text.slice(2, 5), text.slice(5)];
  return Date.UTC(2000 + +year, MONTHS.indexOf(month), +date) / MILLISECONDS;
});
const iso = n => new Date(n * MILLISECONDS).toISOString().slice(0, 10);
const split = n => iso(n).split('-').map(Number);
const spell = n => {
  const [year, month, date] = split(n);
  return two(date) + MONTHS[month - 1] + two(year % 100);
};
const weekday = n => (n + 3) % 7;
const maskOf = known(text => [...text].reduce((mask, c, n) => mask | (c !== '.') << n, 0));
const hasWeekday = (mask, n) => mask >> n & 1;
const weekdaysOf = mask => WEEK.filter((_, n) => hasWeekday(mask, n)).join(' ');
const periodOf = text =>
  ({first: day(text.slice(0, 7)), last: day(text.slice(8, 15)), mask: maskOf(text.slice(16))});
const holds = (p, n) => n >= p.first && n <= p.last && hasWeekday(p.mask, weekday(n));
const localDay = () => {
  const offset = new Date().getTimezoneOffset() * 6e4;
  return Math.floor((Date.now() - offset) / MILLISECONDS);
};
const TODAY = localDay();
const UTC = document.title.endsWith('UTC');

// ---- The rows, read

// A leg as `show` prints it, and four words after that. The line has fixed columns.
class Leg {
  constructor(text) {
    this.text = text;
    this.sequence = text.slice(0, 2);
    this.from = text.slice(3, 6);
    this.to = text.slice(23, 26);
    this.type = text.slice(48, 51);
  }

  get words() { return this.text.split(' '); }

  // Departure 0 and arrival 1: station, time of the aircraft, days after the date of origin, UTC
  // variation.
  get ends() {
    return this.made ??= [this.end(this.from, 12, 43, 17), this.end(this.to, 27, 44, 37)];
  }

  // The same by the clocks of the stations.
  get local() {
    return this.moved ??= this.ends.map(end => {
      const t = UTC ? end.t + end.offset : end.t;
      const over = UTC && end.offset ? Math.floor(t / 1440) : 0;
      return {...end, t: t - over * 1440, plus: end.plus + over};
    });
  }

  end(at, time, later, variation) {
    const minutes = n => +this.text.slice(n, n + 2) * 60 + +this.text.slice(n + 2, n + 4);
    const sign = this.text[variation] === '-' ? -1 : 1;
    const offset = /\d/.test(this.text[variation + 1]) ? minutes(variation + 1) * sign : 0;
    return {at, t: minutes(time), plus: +this.text[later] || 0, offset};
  }
}

// On how many dates a period is.
function datesIn(p) {
  const whole = Math.floor((p.last - p.first + 1) / 7);
  let n = 0;
  for (let bits = p.mask; bits; bits &= bits - 1) n += whole;
  for (let d = p.first + whole * 7; d <= p.last; d++) n += hasWeekday(p.mask, weekday(d));
  return n;
}

// A flight: its lines are read when they are needed. The line of a period has 23 characters after
// its key, and that of a leg has more.
class Flight {
  constructor(element, place) {
    this.element = element;
    this.place = place;
    this.name = element.id;
  }

  read() {
    if (this.its) return this;
    const byKey = new Map();
    Object.assign(this, {its: [], periods: [], mask: 0, dates: 0, first: 1e9, last: 0});
    for (const line of $('pre', this.element).textContent.split('\n')) {
      const blank = line.indexOf(' '), key = line.slice(0, blank), text = line.slice(blank + 1);
      if (text.length > 23) this.addLeg(byKey, key, new Leg(text));
      else if (text.length === 23) this.addPeriod(byKey.get(key), periodOf(text));
    }
    for (const it of this.its) {
      it.stations = [it.legs[0].from, ...it.legs.map(leg => leg.to)];
      it.types = [...new Set(it.legs.map(leg => leg.type))];
    }
    this.main = this.its.reduce((a, b) => b.dates > a.dates ? b : a);
    return this;
  }

  addLeg(byKey, key, leg) {
    if (!byKey.has(key)) {
      const it = {key, n: byKey.size, legs: [], dates: 0};
      byKey.set(key, it);
      this.its.push(it);
    }
    byKey.get(key).legs.push(leg);
  }

  addPeriod(it, p) {
    const dates = datesIn(p);
    p.it = it;
    it.dates += dates;
    this.dates += dates;
    this.mask |= p.mask;
    this.first = Math.min(this.first, p.first);
    this.last = Math.max(this.last, p.last);
    this.periods.push(p);
  }

  // The itinerary on a day.
  on(n) { return this.periods.find(p => holds(p, n))?.it; }
}

// A change of a desk: the dates of a flight that differ from its data set.
function changeOf(element) {
  const [name, ...words] = $('h3', element).textContent.split(' ');
  const c = {element, name, ...periodOf(words.join(' ')), mark: words.join('+')};
  c.lines = $('pre', element).textContent.split('\n').filter(Boolean);
  const legsBut = sign => c.lines.filter(line => line.length > 20 && line[0] !== sign)
    .map(line => new Leg(line.slice(2)));
  c.before = legsBut('+');
  c.after = legsBut('-');
  c.what = whatChanged(c);
  return c;
}
function whatChanged({before, after}) {
  if (!after.length) return 'cancelled';
  if (!before.length) return 'new';
  const columns = (legs, from, to) => legs.map(leg => leg.text.slice(from, to)).join();
  const differ = (from, to) => columns(before, from, to) !== columns(after, from, to);
  if (differ(0, 6) || differ(23, 26)) return 'route';
  return [differ(7, 45) && 'times', differ(46, 51) && 'aircraft'].filter(Boolean).join(', ')
    || 'other';
}

const list = $('#timetable');
const flights = [...list.children].slice(1).map((element, n) => new Flight(element, n));
const byName = new Map(flights.map(f => [f.name, f]));
const all = () => flights.map(f => f.read());
const [, FIRST = TODAY, LAST = TODAY] =
  $('h2', list).textContent.split(' ').map((text, n) => n ? day(text) : 0);
const MONDAY = FIRST - weekday(FIRST);
const WEEKS = Math.floor((LAST - MONDAY) / 7) + 1;
const NEAR = Math.min(Math.max(TODAY, FIRST), LAST);
const changes = $$('#changes>article').map(changeOf);
const changesOf = known(name =>
  changes.length > 0 ? changes.filter(c => c.name === name) : changes);
const changeOn = (name, n) => changesOf(name).find(c => holds(c, n));

// ---- Pieces of several views

const plus = n => n !== 0 && h`<sup>${n > 0 && '+'}${n}</sup>`;
const time = end => h`${clock(end.t)}${plus(end.plus)}`;
function dates(p) {
  if (p.first === p.last) return `${WEEK[weekday(p.first)]} ${spell(p.first)}`;
  const days = p.mask === 127 ? 'daily' : weekdaysOf(p.mask);
  return `${spell(p.first)} \u2013 ${spell(p.last)} ${days}`;
}
const dayLink = (n, at, text) => h`<a href="#day?date=${spell(n)}&amp;at=${at}">${text}</a>`;
const table = (head, rows) =>
  h`<table class="t"><tr>${head.map(text => h`<th>${text}`)}${rows}</table>`;

// The axis: a line for each first of a month, and for today.
const place = n => (n - MONDAY) / WEEKS / .07;
const months = [[FIRST, place(FIRST)]];
for (let n = FIRST + 1; n <= LAST; n++) if (spell(n).startsWith('01')) months.push([n, place(n)]);
const today = TODAY >= FIRST && TODAY <= LAST && place(TODAY + .5);
const stroke = (x, colour, width) => {
  const [from, to] = [`calc(${x}% - ${width}px)`, `calc(${x}% + ${width}px)`];
  return `linear-gradient(90deg,transparent ${from},var(${colour}) 0 ${to},transparent 0)`;
};
const style = document.documentElement.style;
const strokes = [today && stroke(today, '--red', .75),
  ...months.slice(1).map(month => stroke(month[1], '--line', .5))];
style.setProperty('--axis', strokes.filter(Boolean).join() || 'none');

// The names of the months that have room.
let free = -1;
function monthName([n, x], k) {
  const next = months[k + 1]?.[1] ?? 100;
  if (x <= free || x >= 95 || next - x <= 3) return false;
  free = x + 6;
  return h`<span style="left:${x}%">${spell(n).slice(2, 5)}</span>`;
}
const mark = today && h`<em style="left:${today}%" title="today"></em>`;
const axis = h`<div class="axis" aria-hidden="true">${months.map(monthName)}${mark}</div>`;

// A flight's strip: a lane for each weekday, a line over the weeks in which it operates, in the
// colour of its itinerary.
function strip(f) {
  const paths = f.its.map(() => '');
  for (const p of f.periods) {
    for (let d = 0; d < 7; d++) {
      const week = n => (n - d - MONDAY) / 7;
      const from = Math.ceil(week(p.first)), to = Math.floor(week(p.last));
      if (hasWeekday(p.mask, d) && to >= from) paths[p.it.n] += `M${from} ${d * 3 + 1}H${to + 1}`;
    }
  }
  const text = `${many(f.dates, 'date')}, ${spell(f.first)} to ${spell(f.last)}`;
  return h`<div class="st" role="img" aria-label="${text}, ${f.its.length} different">
    <svg viewBox="0 0 ${WEEKS} 21" preserveAspectRatio="none">${
      paths.map((d, n) => h`<path class="k${n % 8}" d="${d}"/>`)}</svg></div>`;
}

// ---- Timetable

// Fills the line of a flight.
function fill(f) {
  if (f.filled) return;
  f.filled = true;
  const {main} = f.read(), others = f.its.filter(it => it !== main);
  const types = [...new Set([main, ...f.its].flatMap(it => it.types))];
  const short = n => spell(n).slice(0, 5);
  $('h3', f.element).innerHTML =
    h`<button aria-expanded="false" tabindex="-1">${f.name}</button>`;
  add(f.element, h`<span class="rt">${main.stations.map((station, n) =>
      h`${n > 0 && h`<i>&rarr;</i>`}${station}`)}</span>
    <span class="tm">${time(main.legs[0].ends[0])} &ndash; ${time(main.legs.at(-1).ends[1])}${
      others.slice(0, 3).map(it => h`<i class="dot k${it.n % 8}"></i>`)}</span>
    <span class="dy" title="${weekdaysOf(f.mask)}">${WEEK.map((_, n) =>
      hasWeekday(f.mask, n) ? n + 1 : h`<i>&middot;</i>`)}</span>
    <span class="ac">${types.join(' ')}</span>
    <span class="ds"><span>${short(f.first)} &ndash; ${short(f.last)}</span><b>${f.dates}</b></span>
    ${strip(f)}`);
}

// The row of a leg. In local times the time between its ends has their UTC variations in it.
function legRow(leg) {
  const [a, b] = leg.ends, words = leg.words;
  const moved = UTC ? 0 : b.offset - a.offset;
  const block = b.t - a.t + (b.plus - a.plus) * 1440 - moved;
  const end = (e, terminal) =>
    h`<td><b>${e.at}</b>${terminal !== '.' && h` <small>T${terminal}</small>`}<td>${time(e)}`;
  // Word 2 is the passenger time of departure, beside 3; word 7 that of arrival, beside 6.
  const passengers = [[2, 3], [7, 6]].map(([n, other]) =>
    words[n] !== words[other] && words[n] !== '....' && `passengers ${words[n]} `);
  const carried = words.slice(14).filter(word => word !== '.').join(' ');
  return h`<tr>${end(a, words[12])}${end(b, words[13])}<td>${block > 0 && clock(block)}
    <td>${leg.type} ${words[10]}<td class="w">${passengers}${carried}`;
}

// The month of a day as a table of its dates. The dates of the period `framed` are framed.
function monthTable(f, first, framed) {
  const [year, month] = split(first);
  const start = Date.UTC(year, month - 1) / MILLISECONDS;
  const end = Date.UTC(year, month) / MILLISECONDS;
  const cells = [];
  for (let n = start; n < end; n++) cells.push(dateCell(f, n, n - start + 1, framed));
  return h`<table><caption>${MONTHS[month - 1]} ${year}</caption>
    <tr>${WEEK.map(name => h`<th abbr="${name}">${name[0]}`)}
    <tr>${Array(weekday(start)).fill(h`<th>`)}${cells}</table>`;
}
function dateCell(f, n, text, framed) {
  const it = f.on(n), c = changeOn(f.name, n);
  const classes = [it && `k${it.n % 8}`, framed && holds(framed, n) && 'mark', c && 'was',
    n === TODAY && 'now'].filter(Boolean).join(' ');
  const shown = !it ? c ? h`<s>${text}</s>` : text
    : h`${dayLink(n, it.stations[0], text)}${it.n > 0 && h`<small>${it.key}</small>`}`;
  return h`${weekday(n) === 0 && h`<tr>`}<td class="${classes}" title="${c && c.what}">${shown}`;
}

const opened = new Set();
function toggle(f, framed) {
  fill(f);
  const open = !opened.delete(f) && !!opened.add(f);
  $('button', f.element).setAttribute('aria-expanded', open);
  f.element.classList.toggle('open', open);
  if (open) add(f.element, details(f, framed));
  else $('.more', f.element).remove();
}

// What is below the line of an open flight: its months, its itineraries, its changes and messages.
function details(f, framed) {
  dress();
  const month = n => iso(n).slice(0, 7);
  const flown = months.filter(([n]) => n <= f.last && month(n) >= month(f.first));
  return h`<div class="more">
    <div class="months">${flown.map(([n]) => monthTable(f, n, framed))}</div>
    <div class="its">${f.its.map(it => itineraryPart(f, it))}</div>
    <p class="facts">${framed && 'Dates of the message or change are framed. '}${changeFacts(f)}${
      messageFacts(f)}</p></div>`;
}
function itineraryPart(f, it) {
  const periods = f.periods.filter(p => p.it === it);
  const head = ['From', 'Departs', 'To', 'Arrives', 'Block', 'Aircraft', ''];
  return h`<div><h4><i class="key k${it.n % 8}">${it.key}</i>${many(it.dates, 'date')}</h4>
    ${table(head, it.legs.map(legRow))}
    <p class="per">${periods.map(p => h`<span>${dates(p)}</span> `)}</p></div>`;
}
function changeFacts(f) {
  const n = changesOf(f.name).length;
  return n > 0 && h`<a href="#changes?q=${f.name}">${many(n, 'change')}</a>: dates underlined, or
    struck through where cancelled. `;
}
function messageFacts(f) {
  return $$(`#messages a[href="#${f.name}"]`).map(link => {
    const id = link.closest('article').id, action = $('.act', link.closest('li')).textContent;
    return h`<br>${action} <a href="#messages?at=${id}">${id.replace(/-/g, ' ')}</a>`;
  });
}

// The words of the search: weekdays and dates say on which days, and all other words have to fit
// one itinerary of those days.
const DATE = /^\d\d(JAN|FEB|MAR|APR|MAY|JUN|JUL|AUG|SEP|OCT|NOV|DEC)(\d\d)?$/i;
const wordsOf = text => (text ?? '').toUpperCase().split(/[\s,]+/).filter(Boolean);
const ROUTE = /^([A-Z]{3})?-([A-Z]{3})?$/;
function termsOf(text) {
  const terms = {mask: 0, dates: [], words: []};
  const years = [split(FIRST)[0], split(LAST)[0]];
  for (const word of wordsOf(text)) {
    const d = WEEK.findIndex(name => name.toUpperCase() === word);
    if (d >= 0) terms.mask |= 1 << d;
    else if (!DATE.test(word)) terms.words.push({word, route: ROUTE.exec(word)});
    else if (word.length === 7) terms.dates.push(day(word));
    else for (let y = years[0]; y <= years[1]; y++) terms.dates.push(day(word + two(y % 100)));
  }
  return terms;
}
function fits(f, terms) {
  const {mask, dates, words} = terms;
  const onDays = p => (!mask || p.mask & mask) && (!dates.length || dates.some(n => holds(p, n)));
  const fitsAll = it => words.every(term => fitsWord(f, it, term));
  return mask || dates.length ? f.periods.some(p => onDays(p) && fitsAll(p.it)) : f.its.some(fitsAll);
}
function fitsWord(f, {stations, types}, {word, route}) {
  if (!route) return f.name.includes(word) || stations.includes(word) || types.includes(word);
  const from = route[1] ? stations.indexOf(route[1]) : 0;
  const to = route[2] ? stations.lastIndexOf(route[2]) : stations.length - 1;
  return from >= 0 && to > from;
}

const SORTS = {
  Flight: f => f.place,
  Route: f => f.main.stations.join(),
  Times: f => f.main.legs[0].ends[0].t,
  Days: f => f.mask,
  Aircraft: f => f.main.types[0],
  Dates: f => f.first * 1e4 + f.last,
};
const sortButton = name => h`<span${name === 'Dates' && h` class="ds"`}>
  <button data-sort="${name}">${name}</button></span>`;
$('h2', list).insertAdjacentHTML('afterend', h`<div class="th">${
  Object.keys(SORTS).map(sortButton)}${axis}</div>
  <p class="none" hidden>No flight fits these words.</p>`);

let order = flights, shown = flights, sorted = 'Flight', arranged, current;
function sortBy(sort) {
  if (sort === sorted) return;
  sorted = sort;
  const keyed = all().map(f => [SORTS[sort](f), f]);
  order = keyed.sort(([a, f], [b, g]) => compare(a, b) || f.place - g.place).map(pair => pair[1]);
  order.forEach(takeOut);
  list.append(...order.map(f => f.element));
}

// Which flights are shown, and in which order.
function arrange(q = '', sort) {
  const now = `${sort} ${q}`, terms = termsOf(q);
  if (now === arranged) return;
  arranged = now;
  sortBy(sort);
  shown = q ? order.filter(f => fits(f.read(), terms)) : order;
  const kept = new Set(shown);
  for (const f of flights) {
    if (f.element.hidden === kept.has(f)) f.element.hidden = !f.element.hidden;
    if (f.element.hidden) takeOut(f);
  }
  laid = shown.findIndex(f => !f.isIn);
  if (laid < 0) laid = shown.length;
  shown.slice(laid).forEach(takeOut);
  if (shown[0] && !kept.has(current)) rove(shown[0]);
}
function showTimetable(s) {
  const sort = SORTS[s.sort] ? s.sort : 'Flight';
  const open = new Set((s.open ?? '').split(' ').map(name => byName.get(name)));
  arrange(s.q, sort);
  for (const f of new Set([...open, ...opened])) {
    if (f && open.has(f) !== opened.has(f)) toggle(f, s.mark && periodOf(s.mark));
  }
  $$('[data-sort]').forEach(b => b.setAttribute('aria-pressed', b.dataset.sort === sort));
  $('.none', list).hidden = shown.length > 0;
  const of = shown.length < flights.length ? shown.length.toLocaleString('en') + ' of ' : '';
  $('#count').textContent = of + many(flights.length, 'flight');
  fillSight();
  goOn();
}

// Of the flights that are shown so many are laid out, those of class `in`: the others follow while
// nothing else is to do.
const PART = 100;
let laid = 0;
function layOut(end) {
  for (const f of shown.slice(laid, end)) f.element.classList.toggle('in', f.isIn = true);
  laid = Math.max(laid, Math.min(end, shown.length));
}
function takeOut(f) {
  if (f.isIn) f.element.classList.toggle('in', f.isIn = false);
}

// Fills the flights that are in sight or near it: they are found by halving.
function fillSight() {
  if (laid < PART) layOut(PART);
  let low = 0, high = laid;
  const box = n => shown[n].element.getBoundingClientRect();
  while (low < high) {
    const n = low + high >> 1;
    if (box(n).bottom < -600) low = n + 1;
    else high = n;
  }
  for (high = low; high < laid && box(high).top < innerHeight + 600;) {
    high += 5;
    if (high >= laid) layOut(high + PART);
  }
  shown.slice(low, high).forEach(fill);
}

// The flights out of sight are read and laid out while nothing else is to do.
const later = window.requestIdleCallback ?? setTimeout;
let isWaiting = false, seen = 0;
function goOn() {
  const isLaid = list.hidden || laid >= shown.length;
  if (isWaiting || isLaid && seen >= flights.length) return;
  isWaiting = true;
  later(() => {
    isWaiting = false;
    for (const f of flights.slice(seen, seen += PART)) f.read();
    if (!list.hidden) layOut(laid + PART);
    goOn();
  });
}

// Makes a flight the one that the keys go on from.
function rove(f) {
  if (current) $('button', current.element).tabIndex = -1;
  fill(current = f);
  $('button', f.element).tabIndex = 0;
}


// The page of the editor: sends keys in their order, and shows what the server answers. What a key does, the server decides.
const at = id => document.getElementById('page-' + id);
const PX = 3 / 1024;  // px of the screen for a unit
const KEYS = new Set(['ArrowLeft', 'ArrowRight', 'ArrowUp', 'ArrowDown', 'Home', 'End', 'Backspace', 'Delete', 'Enter', 'Tab', 'Escape']);
const CONTROLS = {z: 'Undo', y: 'Redo', a: 'All', Home: 'Start', End: 'Finish'};
const LONGEST = 1000000;  // characters of what is pasted
const DEEP = 10;  // levels of the tree that are indented; deeper ones have a number
const EDGE = 24;  // px between the caret and the edge of what is seen
const RETRY = 500;  // ms until a request that failed is sent again

const own = {name: '', done: 0, waiting: [], busy: false, gaps: 0, leaving: false, times: [], engine: [], told: []};
window.mathlay = own;

// The page's name, which it keeps when it is loaded anew. A page that was made of another one, as a tab that is duplicated, has the
// other's name: the lock tells, and the page takes a name of its own and begins with the other's formula.
async function nameOf() {
  const kept = sessionStorage.getItem('mathlay');
  for (let tries = 0; kept && tries < 5; tries++) {
    if (await lock(kept)) return [kept, null];
    await new Promise(wake => setTimeout(wake, 100));
  }
  const name = Array.from(crypto.getRandomValues(new Uint32Array(4)), part => part.toString(36)).join('');
  sessionStorage.setItem('mathlay', name);
  await lock(name);
  return [name, kept];
}

function lock(name) {
  return new Promise(tell => {
    if (!navigator.locks) return tell(true);
    return navigator.locks.request('mathlay ' + name, {ifAvailable: true}, got => {
      tell(Boolean(got));
      return got && new Promise(() => {});
    }).catch(() => tell(true));
  });
}

async function call(what, value) {
  const answer = await fetch(what, {method: 'POST', body: JSON.stringify({page: own.name, ...value})});
  const state = await answer.json();
  if (state.error) throw Object.assign(new Error(state.error), {final: true});
  return state;
}

// Events are sent in their order, and each until it was answered; one that is sent twice is done once.
function put(event) {
  own.waiting.push({event, began: performance.now()});
  send();
}

async function send() {
  if (own.busy) return;
  own.busy = true;
  while (own.waiting.length) {
    const sent = own.waiting.slice(0, 100);
    for (const one of sent) one.sent = true;
    try {
      const state = await call('do', {number: own.done + 1, events: sent.map(one => one.event)});
      own.waiting.splice(0, sent.length);
      show(state);
      const now = performance.now();
      for (const one of sent) own.times.push(now - one.began);
      own.engine.push(...state.took);
      at('milliseconds').textContent = Math.round(now - sent[sent.length - 1].began);
    } catch (fault) {
      if (fault.final) {
        own.waiting.splice(0, sent.length);
        tell(fault.message);
        await open();
      } else {
        tell('The editor doesn’t answer. What you typed is kept here and sent again.');
        await new Promise(wake => setTimeout(wake, RETRY));
      }
    }
  }
  own.busy = false;
  count();
}

// How many layouts the last key made is counted when no key waits.
async function count() {
  try {
    const {number, layouts} = await call('count', {});
    if (number === own.done) at('layouts').textContent = layouts ?? 'not counted';
  } catch {
    at('layouts').textContent = 'not counted';
  }
}

function tell(text) {
  at('told').textContent = text;
  if (text) own.told.push(text);
}

function rect([x, y, width, height], id) {
  const made = document.createElementNS('http://www.w3.org/2000/svg', 'rect');
  const numbers = {x, y, width: Math.max(width, 0), height: Math.max(height, 0)};
  for (const [name, value] of Object.entries(numbers)) made.setAttribute(name, value);
  if (id) made.dataset.id = id;
  return made;
}

function show(state) {
  own.done = state.number;
  own.gaps = state.others;
  at('outlines').firstElementChild.insertAdjacentHTML('beforeend', state.outlines);
  const [left, top, width, height] = state.frame, formula = at('formula');
  formula.setAttribute('viewBox', state.frame.join(' '));
  formula.setAttribute('width', width * PX);
  formula.setAttribute('height', height * PX);
  at('marks').innerHTML = state.lines;
  at('areas').replaceChildren(...state.areas.map(area => rect(area)));
  at('gaps').replaceChildren(...state.gaps.map(area => rect(area)));
  at('boxes').replaceChildren(...state.boxes.map(([id, ...area]) => rect(area, id)));
  showCaret(state.caret);
  showName(state.name);
  showTree(state.tree);
  tell(state.told);
  at('words').textContent = state.formula;
  at('place').textContent = state.place;
  own.chosen = state.chosen;
  at('undo').disabled = !state.undo;
  at('redo').disabled = !state.redo;
  at('microseconds').textContent = state.microseconds;
  at('layouts').textContent = '…';
  at('elements').textContent = state.elements;
}

function showCaret(place) {
  const caret = at('caret');
  const [x, y, height] = place || [0, 0, 0];
  caret.setAttribute('x', x - 256);
  caret.setAttribute('y', y);
  caret.setAttribute('height', height);
  const paper = at('paper'), keys = at('keys').style;
  const seen = caret.getBoundingClientRect(), frame = paper.getBoundingClientRect();
  keys.left = seen.left - frame.left + paper.scrollLeft + 'px';
  keys.top = seen.top - frame.top + paper.scrollTop + 'px';
  paper.scrollLeft += past(seen.left, seen.right, frame.left, frame.right);
  paper.scrollTop += past(seen.top, seen.bottom, frame.top, frame.bottom);
}

// How far something has to move to stand within a frame.
function past(start, end, first, last) {
  return start < first + EDGE ? start - first - EDGE : end > last - EDGE ? end - last + EDGE : 0;
}

function showName(name) {
  const shown = at('name');
  shown.hidden = !name;
  shown.replaceChildren();
  if (!name) return;
  shown.append('\\' + name.text);
  for (const [one, gives] of name.names) {
    const offer = document.createElement('span');
    offer.textContent = '\\' + one + ' ' + gives;
    shown.append(offer);
  }
}

function showTree(lines) {
  const tree = at('tree'), focused = document.activeElement?.closest('#page-tree li')?.dataset.id;
  tree.replaceChildren(...lines.map(([id, level, text, chosen, here]) => {
    const line = document.createElement('li');
    line.setAttribute('role', 'treeitem');
    line.setAttribute('aria-level', level);
    line.setAttribute('aria-selected', chosen);
    line.setAttribute('aria-current', here);
    line.classList.toggle('here', here);
    line.tabIndex = -1;
    line.dataset.id = id;
    line.textContent = (level > DEEP ? `${'  '.repeat(DEEP)}${level}: ` : '  '.repeat(level - 1)) + text;
    return line;
  }));
  const line = tree.querySelector(`[data-id="${focused}"]`);
  (line || tree.querySelector('[aria-selected="true"], .here') || tree.firstElementChild).tabIndex = 0;
  if (focused) (line || tree.querySelector('[tabindex="0"]')).focus();
  else bring(tree.querySelector('[aria-selected="true"], .here'));
}

// A line of the tree comes into sight, and the page stays where it is.
function bring(line) {
  const list = at('tree').parentElement, seen = line?.getBoundingClientRect(), frame = list.getBoundingClientRect();
  if (line) list.scrollTop += past(seen.top, seen.bottom, frame.top, frame.bottom);
}

async function open(like) {
  for (;;) {
    try {
      return show(await call('open', like ? {like} : {}));
    } catch (fault) {
      tell(fault.final ? fault.message : 'The editor doesn’t answer. It is asked again.');
      if (fault.final) return;
      await new Promise(wake => setTimeout(wake, RETRY));
    }
  }
}

// Keys of the formula

function press(event) {
  if (event.isComposing || event.altKey) return;
  let key = event.key;
  if (event.ctrlKey || event.metaKey) {
    key = CONTROLS[key.length === 1 ? key.toLowerCase() : key];
    if (key === 'Undo' && event.shiftKey) key = 'Redo';
    if (!key) return;
  } else if (!KEYS.has(key)) {
    return;
  }
  if (key === 'Tab' && (own.leaving || !own.gaps && at('name').hidden && !own.waiting.length)) return;
  own.leaving = key === 'Escape';
  event.preventDefault();
  put({key, extend: event.shiftKey && key !== 'Redo'});
}

function typed(event) {
  if (event.isComposing) return;
  own.leaving = false;
  const text = at('keys').value;
  at('keys').value = '';
  for (const letter of text) put({key: letter});
}

function pointOf(event) {
  const point = new DOMPoint(event.clientX, event.clientY).matrixTransform(at('formula').getScreenCTM().inverse());
  const bounded = value => Math.max(-1e9, Math.min(1e9, Math.round(value)));
  return [bounded(point.x), bounded(point.y)];
}

function point(event) {
  if (event.button !== 0) return;
  event.preventDefault();
  at('keys').focus({preventScroll: true});
  put({point: pointOf(event), extend: event.shiftKey});
  at('paper').setPointerCapture(event.pointerId);
}

function drag(event) {
  if (!(event.buttons & 1 && at('paper').hasPointerCapture(event.pointerId))) return;
  const last = own.waiting[own.waiting.length - 1], moved = {point: pointOf(event), extend: true};
  if (last && !last.sent && last.event.point && last.event.extend) last.event = moved;
  else put(moved);
}

// What is selected, to the clipboard
function take(event) {
  event.preventDefault();
  if (!own.chosen) return;
  event.clipboardData.setData('text/plain', own.chosen);
  if (event.type === 'cut') put({key: 'Delete'});
}

// The tree

function climb(event) {
  const line = event.target.closest('li');
  if (!line) return;
  const next = {ArrowDown: line.nextElementSibling, ArrowUp: line.previousElementSibling, Home: at('tree').firstElementChild,
    End: at('tree').lastElementChild}[event.key];
  if (next) {
    line.tabIndex = -1;
    next.tabIndex = 0;
    next.focus();
  } else if (event.key === 'Enter' || event.key === ' ') {
    put({choose: Number(line.dataset.id)});
  } else {
    // A character that is typed here goes to the formula.
    if (event.key.length === 1 && !event.ctrlKey && !event.metaKey && !event.altKey) at('keys').focus();
    return;
  }
  event.preventDefault();
}

function pointOut(event) {
  for (const box of at('boxes').querySelectorAll('.pointed')) box.classList.remove('pointed');
  const line = event.type !== 'mouseout' && event.type !== 'focusout' && event.target.closest('li');
  if (line) at('boxes').querySelector(`[data-id="${line.dataset.id}"]`)?.classList.add('pointed');
}

// What is copied

async function copy(what) {
  try {
    const {text} = await call('copy', {what});
    own.copied = text;
    let told = 'Copied.';
    try {
      await navigator.clipboard.writeText(text);
    } catch {
      told = 'The browser doesn’t let the page copy. Copy this text:';
      at('copy-title').textContent = told;
      at('copy-text').value = text;
      at('copy').showModal();
      at('copy-text').select();
    }
    at('place').textContent = told;
  } catch (fault) {
    tell(fault.final ? fault.message : 'The editor doesn’t answer. Nothing was copied.');
  }
}

addEventListener('beforeunload', event => own.waiting.length && event.preventDefault());
addEventListener('load', async () => {
  const [name, like] = await nameOf();
  own.name = name;
  await open(like);
  at('keys').addEventListener('keydown', press);
  at('keys').addEventListener('input', typed);
  at('keys').addEventListener('compositionend', typed);
  at('keys').addEventListener('paste', event => {
    event.preventDefault();
    const text = event.clipboardData.getData('text/plain');
    if (text.length > LONGEST) tell('That is too long to paste. The formula is as it was.');
    else put({paste: text});
  });
  for (const kind of ['copy', 'cut']) at('keys').addEventListener(kind, take);
  at('paper').addEventListener('pointerdown', point);
  at('paper').addEventListener('pointermove', drag);
  at('tree').addEventListener('keydown', climb);
  at('tree').addEventListener('click', event => {
    const line = event.target.closest('li');
    if (line) put({choose: Number(line.dataset.id)});
    if (line && event.detail) at('keys').focus();
  });
  for (const kind of ['mouseover', 'mouseout', 'focusin', 'focusout']) at('tree').addEventListener(kind, pointOut);
  for (const [id, key] of [['undo', 'Undo'], ['redo', 'Redo']]) {
    at(id).addEventListener('click', event => {
      put({key});
      if (event.detail) at('keys').focus();
    });
  }
  at('mathml').addEventListener('click', () => copy('mathml'));
  at('svg').addEventListener('click', () => copy('svg'));
  at('keys').focus();
  own.ready = true;
});

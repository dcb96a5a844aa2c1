// ---- the table of chunks

let found = [], page = 0;

// Whether a place or the name of a heap is these words, or begins with them.
const begins = (text, words) => text === words || text.startsWith(words + ' ') || text.startsWith(words + ',');

// An address stands for the chunk that it lies in.
function matches(words) {
  const kind = byId('kind').value;
  const address = /^0x[0-9a-f]+$/.test(words) ? parseInt(words, 16) : null;
  const out = [];
  for (const strip of strips) {
    for (let i = 0; i < strip.count; i++) {
      if (!isChunk(strip, i) || (kind !== '' && strip.kind[i] !== +kind)) continue;
      if (address !== null) {
        if (address < strip.address[i] || address >= strip.address[i] + sizeOf(strip, i)) continue;
      } else if (words !== '') {
        if (!begins(placeOf(strip, i), words) && !begins(strip.name, words)) continue;
      }
      out.push(strip.first + i);
    }
  }
  if (byId('order').value === 'size') {
    const sizes = new Float64Array(all);
    for (const id of out) sizes[id] = sizeOf(...stripOf(id));
    out.sort((a, b) => sizes[b] - sizes[a] || a - b);
  }
  return out;
}

function fillTable() {
  const body = document.querySelector('#chunks tbody');
  body.replaceChildren();
  for (const id of found.slice(page * SHOWN, (page + 1) * SHOWN)) {
    const [strip, i] = stripOf(id);
    const row = element('tr', '', {tabindex: 0});
    const address = element('td');
    address.append(element('code', hexadecimal(userOf(strip, i))));
    row.append(address, element('td', number(sizeOf(strip, i))), element('td', placeOf(strip, i)),
      element('td', strip.name));
    row.addEventListener('click', () => goTo(id));
    row.addEventListener('keydown', (event) => { if (event.key === 'Enter') goTo(id); });
    body.append(row);
  }
  const last = Math.min(found.length, (page + 1) * SHOWN);
  byId('found').textContent = found.length === 0 ? 'no chunk is so'
    : `${number(page * SHOWN + 1)} to ${number(last)} of ${number(found.length)} chunks`;
  byId('earlier').disabled = page === 0;
  byId('later').disabled = last === found.length;
}

function search() {
  found = matches(byId('words').value.trim().toLowerCase().replace(/\s+/g, ' '));
  page = 0;
  fillTable();
}

data.kinds.slice(0, -2).forEach((word, kind) => byId('kind').append(element('option', word, {value: kind})));
let waiting = 0;
byId('words').addEventListener('input', () => { clearTimeout(waiting); waiting = setTimeout(search, 200); });
byId('kind').addEventListener('change', search);
byId('order').addEventListener('change', search);
byId('search').addEventListener('submit', (event) => { event.preventDefault(); search(); });
byId('earlier').addEventListener('click', () => { page--; fillTable(); });
byId('later').addEventListener('click', () => { page++; fillTable(); });
search();

// ---- rows of small arenas, which a button shows

function foldRows() {
  const rows = [...document.querySelectorAll('tr[data-small]')];
  if (rows.length === 0) return;
  const row = element('tr', '', {class: 'screen'}), cell = element('td', '', {colspan: rows[0].cells.length});
  const button = element('button', '', {type: 'button'});
  const turn = () => {
    const folded = document.body.classList.toggle('folded');
    button.textContent = `${folded ? 'show' : 'hide'} ${number(rows.length)} small arenas`;
  };
  button.addEventListener('click', turn);
  turn();
  cell.append(button);
  row.append(cell);
  rows[0].before(row);
}
foldRows();

// ---- the lists of bins and caches

function fillList(box, ids) {
  let shown = 0;
  const more = element('button', '', {type: 'button', class: 'more'});
  const addSome = () => {
    more.remove();
    for (const id of ids.slice(shown, shown += LISTED)) {
      const [strip, i] = stripOf(id);
      const made = element('button', hexadecimal(userOf(strip, i)), {type: 'button',
        title: `${number(sizeOf(strip, i))} bytes`});
      made.addEventListener('click', () => goTo(id));
      box.append(made);
    }
    more.textContent = `${number(ids.length - shown)} more`;
    if (shown < ids.length) box.append(more);
  };
  more.addEventListener('click', addSome);
  addSome();
}

function fillLists() {
  const owners = new Map();
  for (const [owner, name, ids] of data.lists) {
    if (!owners.has(owner)) owners.set(owner, []);
    owners.get(owner).push([name, ids]);
  }
  for (const [owner, lists] of owners) {
    const count = lists.reduce((sum, [, ids]) => sum + ids.length, 0);
    const details = element('details');
    details.append(element('summary', `${owner}: ${number(lists.length)} list${lists.length === 1 ? '' : 's'}, `
      + `${number(count)} chunk${count === 1 ? '' : 's'}`));
    details.addEventListener('toggle', () => {
      if (details.childElementCount > 1) return;
      for (const [name, ids] of lists) {
        const bytes = ids.reduce((sum, id) => sum + sizeOf(...stripOf(id)), 0);
        const line = element('div', '', {class: 'list'}), row = element('div', '', {class: 'row'});
        line.append(element('b', name === 'bin 1' ? 'bin 1, unsorted' : name),
          `${number(ids.length)} chunk${ids.length === 1 ? '' : 's'}, ${number(bytes)} bytes`, row);
        fillList(row, ids);
        details.append(line);
      }
    });
    byId('lists').append(details);
  }
  if (owners.size === 0) byId('lists').append(element('p', 'All lists are empty.'));
  else byId('lists').firstChild.open = data.lists.length < 40;
}
fillLists();

// ---- the curves

const curves = byId('curves'), usual = byId('reading').textContent;
curves.addEventListener('pointermove', (event) => {
  const box = curves.getBoundingClientRect();
  const share = ((event.clientX - box.left) / box.width * data.width - 70) / (data.width - 70);
  const bucket = data.buckets[Math.floor(share * data.buckets.length)];
  if (share < 0 || !bucket) return;
  const [line, least, most, blocks] = bucket;
  const width = data.buckets.length > 1 ? data.buckets[1][0] - data.buckets[0][0] : 1;
  const last = Math.min(data.lines, line + width - 1);
  byId('reading').textContent = `Lines ${number(line)} to ${number(last)}: ${number(least)} to ${number(most)} live `
    + `bytes, ${number(blocks)} blocks behind the last.`;
});
curves.addEventListener('pointerleave', () => { byId('reading').textContent = usual; });

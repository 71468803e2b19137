'use strict';
const filters = document.querySelector('.filters');
const chunks = [...document.querySelectorAll('.chunk')];
const controls = [...filters.querySelectorAll('select, input')];
const number = new Intl.NumberFormat('en-US');

// The modules of a chunk are what is counted; the chunk's own size has to be their sum.
const sizesOf = (chunk) => [...chunk.querySelectorAll('tr[data-size]')].map((row) => Number(row.dataset.size));
const sum = (sizes) => sizes.reduce((total, size) => total + size, 0);
const agree = chunks.every((chunk) => sum(sizesOf(chunk)) === Number(chunk.dataset.size));
document.body.dataset.sums = agree ? 'agree' : 'differ';

const isAll = (select) => select.selectedOptions[0].hasAttribute('data-all');

function wanted(chunk) {
  const group = document.getElementById('group');
  const name = document.getElementById('name');
  const entry = document.getElementById('entry');
  const above = document.getElementById('above');
  return (isAll(group) || chunk.dataset.group === group.value)
    && (isAll(name) || chunk.dataset.name === name.value)
    && (isAll(entry) || chunk.dataset.entries.split(' ').includes(entry.value))
    && (!above || !above.checked || chunk.classList.contains('above'));
}

function write(id, value) {
  const place = document.getElementById(id);
  if (place) place.textContent = number.format(value);
}

function show() {
  for (const chunk of chunks) chunk.hidden = !wanted(chunk);
  const shown = chunks.filter((chunk) => !chunk.hidden);
  const sizes = shown.flatMap(sizesOf);
  write('shown-chunks', shown.length);
  write('shown-modules', sizes.length);
  write('shown-bytes', sum(sizes));
  write('shown-above', shown.filter((chunk) => chunk.classList.contains('above')).length);
}

// The filters stand in the address too, so that a view can be kept: #group=1&entry=0
function toAddress() {
  const said = new URLSearchParams();
  for (const control of controls) {
    if (control.type === 'checkbox') {
      if (control.checked) said.set(control.id, '1');
    } else if (!isAll(control)) said.set(control.id, control.value);
  }
  history.replaceState(null, '', `#${said}`);
}

function choose(select, value) {
  const found = [...select.options].findIndex((option) => !option.hasAttribute('data-all') && option.value === value);
  select.selectedIndex = Math.max(found, 0);
}

function fromAddress() {
  const said = new URLSearchParams(location.hash.slice(1));
  for (const control of controls) {
    if (control.type === 'checkbox') control.checked = said.has(control.id);
    else choose(control, said.get(control.id));
  }
  show();
}

filters.hidden = false;
filters.addEventListener('change', () => { show(); toAddress(); });
filters.addEventListener('reset', () => setTimeout(() => { show(); toAddress(); }));
filters.addEventListener('submit', (event) => event.preventDefault());
addEventListener('hashchange', fromAddress);
fromAddress();

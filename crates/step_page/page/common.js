'use strict';
// A page to step through the rooms of one file, or of two next to each other. All that it shows follows from texts in the page: a script
// and what `bgview trace --json` answers to it, or a transcript and what `bgview why` answers to it.

// ---- for all files

const at = id => document.getElementById(id);
const range = count => Array.from({ length: count }, (_, index) => index);
const escaped = text => String(text).replace(/[&<>"]/g, byte => '&#' + byte.charCodeAt(0) + ';');
const hueOf = process => `var(--process${process % 8})`;

// What a block says of its room.
function readSpec(block) {
  const words = name => (block.find(line => line.startsWith(name + ' ')) || '').split(' ').slice(1);
  const isReduction = block[0] === 'reduction 1'; // the inputs are those of the simulators
  const inputs = words('inputs');
  return {
    name: words('room')[0],
    isReduction,
    inputs,
    processes: isReduction ? Number(words('processes')[0]) : inputs.length,
    simulators: isReduction ? inputs.length : Number(words('simulators')[0]),
    rounds: Number(words('rounds')[0]),
    turns: Number(words('turns')[0]),
    protocol: block.slice(block.indexOf('protocol') + 1),
  };
}

const table = rows => `<table>${rows.map(row => `<tr>${row.join('')}</tr>`).join('')}</table>`;
// Each cell has a hint, which a browser shows if the mouse is on it.
const cell = (text, hint, ...classes) => `<td title="${escaped(hint)}" class="${classes.filter(Boolean).join(' ')}">${text}</td>`;
const headCell = (text, hint) => `<th title="${escaped(hint)}">${text}</th>`;
const corner = '<th></th>';
const section = (name, title, body) => `<section class="${name}"><h2>${title}</h2>${body}</section>`;

// Some things in words: a, b and c.
const listed = words => words.join(', ').replace(/, ([^,]*)$/, ' and $1');
const many = (number, thing) => `${number} ${thing}${number === 1 ? '' : thing.endsWith('s') ? 'es' : 's'}`;
const named = simulators => (simulators.length === 1 ? 'simulator ' : 'simulators ') + listed(simulators);

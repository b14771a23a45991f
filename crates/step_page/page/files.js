// ---- the files in the page, and its address

let isEmpty = true; // so far: no file has any text

// Each file is an element of a class that says what it is, followed by the answer to it, and maybe by the outcomes that are open after each command.
function readFile(element) {
  const answer = element.nextElementSibling;
  const open = answer.nextElementSibling;
  isEmpty = isEmpty && element.textContent === '';
  return element.className === 'transcript' ? readJudged(element.textContent, answer.textContent) : readScript(element.textContent, answer.textContent, open?.className === 'open' ? open.textContent : '');
}

function fromAddress() {
  const [numbers, hidden] = location.hash.slice(1).split(',hidden');
  const [room, to] = numbers.split(',').map(Number);
  isFutureShown = hidden === undefined;
  open(room || 0, Number.isFinite(to) ? to : 0);
}

function start() {
  runs = [...document.querySelectorAll('.script, .transcript')].map(readFile);
  whenShown = () => history.replaceState(null, '', `#${current},${count}${isFutureShown ? '' : ',hidden'}`);
  showRefused();
  if (roomCount() === 0) {
    at('runs').textContent = isEmpty ? 'The file is empty. A shell empties the file that a command writes to before the command reads: `bgview page x > x` has lost x.' : 'The file opens no room.';
    return;
  }
  bindControls();
  onkeydown = onKey;
  onhashchange = fromAddress;
  onresize = show;
  fromAddress();
}

start();

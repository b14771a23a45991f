// ---- the picture of a script, as `bgview draw` makes it, to be saved as SVG or PNG

const SHARPNESS = 2; // pixels of a PNG for each one of the picture

let picture = ''; // that is shown

const addressOf = (text, type) => `data:${type};charset=utf-8,${encodeURIComponent(text)}`;

function save(name, address) {
  const link = document.createElement('a');
  Object.assign(link, { download: name, href: address });
  link.click();
}

// A picture as the address of a PNG; it has none if it is too large for the browser.
async function asPng(picture) {
  const image = new Image();
  image.src = addressOf(picture, 'image/svg+xml');
  await image.decode();
  const canvas = document.createElement('canvas');
  Object.assign(canvas, { width: image.naturalWidth * SHARPNESS, height: image.naturalHeight * SHARPNESS });
  canvas.getContext('2d').drawImage(image, 0, 0, canvas.width, canvas.height);
  return canvas.toDataURL('image/png');
}

async function saveAsPng(name) {
  const address = await asPng(picture).catch(() => '');
  if (address.startsWith('data:image/png')) save(name, address);
  else at('note').textContent = 'The picture is too large for this browser to make a PNG of it.';
}

function showPictureFields(given) {
  at('fields').innerHTML = `<label>percent <input type="number" name="percent" min="10" max="1000" value="${given.percent ?? 100}" required></label>`
    + `<label>a box for each stretch of a turn <input type="checkbox" name="byTurns"${given.byTurns ? ' checked' : ''}></label>`
    + '<button>draw</button><button type="button" data-save="svg">save as SVG</button><button type="button" data-save="png">save as PNG</button>';
}

function showPicture(script) {
  if (!at('fields').checkValidity()) return;
  const answer = view.draw(script, { percent: Number(at('fields').percent.value), byTurns: at('fields').byTurns.checked });
  picture = answer.text;
  const drawn = new DOMParser().parseFromString(answer.text, 'image/svg+xml').documentElement;
  at('shown').replaceChildren(answer.status > 1 ? answerFault(answer) : document.importNode(drawn, true));
}

function savePicture(kind) {
  const name = (runs[0]?.rooms[0]?.name ?? 'run') + '.' + kind;
  if (kind === 'svg') save(name, addressOf(picture, 'image/svg+xml'));
  else saveAsPng(name);
}

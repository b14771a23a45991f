// Put at the end of a page: goes through all steps of all rooms, and writes what is shown at each as JSON into the element `seen`.
{
  const cells = table => [...table.querySelectorAll('tr')].slice(1).map(row => [...row.children].map(cell => cell.textContent));
  const number = (element, name) => Number(element.getAttribute(name));
  const hints = table => [...table.querySelectorAll('tr')].slice(1).map(row => [...row.children].map(cell => cell.title));
  const classesOf = cell => [...cell.classList, ...[...cell.querySelectorAll('.lost')].map(() => 'lost')].join(' ');
  const classes = table => [...table.querySelectorAll('tr')].slice(1).map(row => [...row.children].map(classesOf));
  // A box with its text and its place, how it is drawn, and from where the dotted line to it begins.
  const boxOf = group => {
    const [rect, path] = [group.querySelector('rect'), group.querySelector('path')];
    return {
      text: group.querySelector('text').textContent,
      x: number(rect, 'x'),
      y: number(rect, 'y'),
      pale: number(group, 'opacity') < 1,
      width: number(rect, 'stroke-width'),
      stroke: rect.getAttribute('stroke'),
      dashed: rect.hasAttribute('stroke-dasharray'),
      from: path ? path.getAttribute('d').split(' ').slice(1, 3).map(Number) : null,
    };
  };
  const drawn = svg => ({
    boxes: [...svg.querySelectorAll('g')].map(boxOf),
    hatched: [...svg.querySelectorAll('rect[fill="url(#hatch)"]')].map(rect => ['x', 'y', 'width'].map(name => number(rect, name))),
    crosses: [...svg.querySelectorAll('text')].filter(text => text.textContent === '\u2715').map(text => [number(text, 'x'), number(text, 'y')]),
    turns: [...svg.querySelectorAll('.turn')].map(text => [text.textContent, number(text, 'x'), number(text, 'y')]),
    openings: [...svg.querySelectorAll('.opening')].map(text => ({ text: text.lastChild.textContent, x: number(text, 'x'), y: number(text, 'y'), pale: number(text, 'opacity') < 1, bold: number(text, 'font-weight') > 400, fill: text.getAttribute('fill'), hint: text.querySelector('title').textContent })),
    names: [...svg.querySelectorAll('.name')].map(text => text.textContent),
    now: Number(svg.querySelector('.now-line').getAttribute('d').split(' ')[1]),
    isCrossed: [...svg.querySelectorAll('g')].some(group => svg.querySelector('.now-line').compareDocumentPosition(group) === Node.DOCUMENT_POSITION_PRECEDING && group.querySelector('path')),
  });
  const panelShown = panel => ({
    head: ['h1', '.about', '.protocol'].map(name => panel.querySelector(name).textContent),
    sentence: [...panel.querySelector('.sentence').childNodes].map(node => node.textContent).join('|'),
    titles: [...panel.querySelectorAll('.tables h2')].map(title => title.textContent),
    tables: [...panel.querySelectorAll('.tables table')].map(cells),
    classes: [...panel.querySelectorAll('.tables table')].map(classes),
    hints: [...panel.querySelectorAll('.tables table')].map(hints),
    drawn: drawn(panel.querySelector('.lanes svg')),
  });
  // The lanes without what is still to come, at each third step.
  const withoutFuture = () => {
    if (count % 3 !== 0) return null;
    press('h');
    const lanes = [...document.querySelectorAll('.lanes svg')].map(drawn);
    press('h');
    return lanes;
  };
  const shown = () => ({ at: [current, count], position: at('position').textContent, slider: Number(at('slider').value), panels: [...at('runs').children].map(panelShown), hidden: withoutFuture() });
  const press = (key, shiftKey = false) => {
    document.body.dispatchEvent(new KeyboardEvent('keydown', { key, shiftKey, bubbles: true, cancelable: true }));
    return count;
  };
  const after = (from, act) => {
    go(from);
    act();
    return count;
  };
  // Plays from the beginning until the page pauses by itself, or for more ticks than there are steps.
  const played = () => {
    const [realSet, realClear] = [setInterval, clearInterval];
    let tick = null;
    window.setInterval = act => {
      tick = act;
      return 1;
    };
    window.clearInterval = () => {
      tick = null;
    };
    go(0);
    at('play').onclick();
    for (let left = lengthOf(shownRooms()) + 2; tick && left > 0; left--) tick();
    [window.setInterval, window.clearInterval] = [realSet, realClear];
    return [count, at('play').textContent];
  };
  const opened = [current, count];
  const steps = [];
  const differences = [];
  const keys = {};
  if (roomCount() > 0) {
    range(roomCount()).forEach(index => {
      open(index, 0);
      differences.push(at('difference').hidden ? null : at('difference').textContent);
      const total = lengthOf(shownRooms());
      for (let to = 0; to <= total; to++) {
        go(to);
        steps.push(shown());
      }
    });
    open(0, 0);
    Object.assign(keys, { right: press('ArrowRight'), left: press('ArrowLeft'), turn: press('ArrowRight', true), end: press('End'), turnBack: press('ArrowLeft', true), home: press('Home'), difference: press('d') });
    keys.buttons = ['first', 'turn-back', 'back', 'on', 'turn-on', 'last', 'difference'].map(id => after(id === 'back' ? 3 : 1, () => at(id).onclick()));
    keys.slid = after(0, () => {
      at('slider').value = 1;
      at('slider').oninput({ target: at('slider') });
    });
    keys.addresses = range(roomCount()).map(index => {
      location.hash = `#${index},1`;
      fromAddress();
      return [current, count];
    });
    location.hash = '#0,1,hidden';
    fromAddress();
    keys.hidden = [count, isFutureShown, at('future').textContent, location.hash];
    at('future').onclick();
    keys.shown = [count, isFutureShown, at('future').textContent, location.hash];
    open(0, 0);
    keys.played = played();
    open(0, 0);
  }
  const seen = document.createElement('pre');
  seen.id = 'seen';
  seen.textContent = JSON.stringify({ opened, names: runs.map(run => run.rooms.map(room => room.name)), tabs: !at('rooms').hidden, nothing: roomCount() === 0 ? at('runs').textContent : '', refused: at('refused').hidden ? '' : at('refused').textContent, steps, differences, keys, width: document.documentElement.scrollWidth });
  document.body.append(seen);
}

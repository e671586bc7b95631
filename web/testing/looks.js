// What Lighthouse would look at, and more, in the page as it is shown now: contrast of texts, names and sizes of controls, headings,
// identifiers, and whether anything is cut or covered. An expression, whose value is a list of sentences.
(() => {
  const faults = [], shows = it => it.checkVisibility({ checkVisibilityCSS: true }) && getComputedStyle(it).clipPath === 'none';
  const all = selector => [...document.querySelectorAll(selector)].filter(shows);
  const nameOf = it => `${it.tagName.toLowerCase()}${it.id && `#${it.id}`} "${it.textContent.trim().slice(0, 30)}"`;
  const fault = (it, what) => { faults.push(`${nameOf(it)}: ${what}`); };

  // ---- contrast, by the formula of WCAG 2
  const colorOf = text => {
    const [red, green, blue, alpha = 1] = text.match(/[\d.]+/g).map(Number);
    return { parts: [red, green, blue], alpha };
  };
  const over = (top, below) => top.parts.map((part, place) => part * top.alpha + below[place] * (1 - top.alpha));
  const paperOf = it => {
    if (!it) return [255, 255, 255];
    const own = colorOf(getComputedStyle(it).backgroundColor);
    return own.alpha === 1 ? own.parts : over(own, paperOf(it.parentElement));
  };
  const light = part => part <= 0.03928 ? part / 12.92 : ((part + 0.055) / 1.055) ** 2.4;
  const shine = ([red, green, blue]) => 0.2126 * light(red / 255) + 0.7152 * light(green / 255) + 0.0722 * light(blue / 255);
  const contrast = (ink, paper) => {
    const [low, high] = [shine(ink), shine(paper)].sort((a, b) => a - b);
    return (high + 0.05) / (low + 0.05);
  };
  const hasOwn = it => [...it.childNodes].some(node => node.nodeType === Node.TEXT_NODE && node.data.trim());
  const hasText = it => hasOwn(it) || (it.tagName === 'INPUT' && it.type === 'text');
  for (const it of all('body *').filter(hasText)) {
    const style = getComputedStyle(it), paper = paperOf(it), ink = over(colorOf(style.color), paper);
    const ratio = contrast(ink, paper), size = parseFloat(style.fontSize);
    const least = size >= 24 || (size >= 18.66 && Number(style.fontWeight) >= 700) ? 3 : 4.5;
    if (ratio < least) fault(it, `the contrast is ${ratio.toFixed(2)}`);
    if (size < 12) fault(it, `its letters are ${size} points high`);
  }

  // what is drawn: the points of the picture, and in the file of rollbacks the marks of frames
  const drawn = [['lit', 'dark', 4.5], ['main', 'raised', 3], ['back', 'raised', 3], ['ahead', 'raised', 3]];
  const probe = document.body.appendChild(document.createElement('i')), root = getComputedStyle(document.documentElement);
  for (const [ink, paper, least] of drawn.filter(names => names.slice(0, 2).every(it => root.getPropertyValue(`--${it}`)))) {
    probe.style.color = `var(--${ink})`;
    probe.style.backgroundColor = `var(--${paper})`;
    const { color, backgroundColor } = getComputedStyle(probe), ratio = contrast(colorOf(color).parts, colorOf(backgroundColor).parts);
    if (ratio < least) faults.push(`the contrast of --${ink} on --${paper} is ${ratio.toFixed(2)}`);
  }
  probe.remove();

  // ---- names and sizes of controls. A finger needs 44 points, a mouse 24
  const controls = all('button, a[href], input, select, textarea, summary, canvas'), hasFingers = matchMedia('(pointer: coarse)').matches;
  for (const it of controls) {
    const named = (it.getAttribute('aria-labelledby') ?? '').split(' ').map(id => document.getElementById(id)?.textContent ?? '').join('');
    const name = it.getAttribute('aria-label') || named || it.labels?.[0]?.textContent || it.textContent;
    if (!name.trim()) fault(it, 'it has no name');
    const { width, height } = (it.type === 'checkbox' ? it.labels[0] : it).getBoundingClientRect(), least = hasFingers ? 44 : 24;
    if (it.tagName !== 'CANVAS' && Math.min(width, height) < least) fault(it, `it has ${width} times ${height} points`);
    if (it.tabIndex > 0) fault(it, 'it has a place in the order of Tab');
    if (it.closest('[aria-hidden=true]')) fault(it, 'it is hidden from screen readers');
  }

  // what is wider than its place scrolls, by keys too
  for (const it of all('body *')) {
    const scrolls = /auto|scroll/.test(getComputedStyle(it).overflowX) && it.scrollWidth > it.clientWidth;
    if (scrolls && it.getAttribute('tabindex') === null && !controls.includes(it)) fault(it, 'it scrolls, and keys do not reach it');
  }

  // ---- nothing is cut or covered
  for (const it of [...controls, ...all('h1, h2, p, label, pre, summary')]) {
    const { left, right, width } = it.getBoundingClientRect();
    if (width && (left < -0.5 || right > innerWidth + 0.5)) fault(it, `it reaches from ${left} to ${right} of ${innerWidth}`);
    const { display, textOverflow } = getComputedStyle(it);
    const mayBeCut = /^(PRE|INPUT|CANVAS)$/.test(it.tagName) || display === 'inline' || textOverflow === 'ellipsis';
    if (it.scrollWidth > it.clientWidth + 1 && hasText(it) && !mayBeCut) fault(it, 'its text is cut');
  }
  const boxes = all('.key, #picture, #state, #numbers, #drop, header button').map(it => ({ it, box: it.getBoundingClientRect() }));
  boxes.forEach(({ it, box }, place) => {
    for (const { it: other, box: its } of boxes.slice(place + 1)) {
      const areBeside = box.right <= its.left + 0.5 || its.right <= box.left + 0.5;
      const areAbove = box.bottom <= its.top + 0.5 || its.bottom <= box.top + 0.5;
      if (!areBeside && !areAbove && !it.contains(other)) fault(it, `${nameOf(other)} covers it`);
    }
  });
  // a phone shows a page that is too wide in small
  const wide = document.documentElement.scrollWidth;
  if (visualViewport.scale < 0.99 || wide > innerWidth) faults.push(`the page is ${wide} wide of ${innerWidth}, at ${visualViewport.scale}`);

  // ---- the document
  const ids = [...document.querySelectorAll('[id]')].map(it => it.id), levels = all('h1, h2, h3').map(it => Number(it.tagName[1]));
  if (new Set(ids).size < ids.length) faults.push('an identifier stands twice');
  if (levels[0] !== 1 || levels.filter(it => it === 1).length > 1) faults.push(`the headings are ${levels}`);
  if (all('main').length !== 1) faults.push('there is not one main part');
  if (!document.documentElement.lang || !document.title) faults.push('the page has no language, or no title');
  const viewport = document.querySelector('meta[name=viewport]')?.content ?? '';
  if (!viewport.includes('width=device-width') || /user-scalable=no|maximum-scale/.test(viewport)) faults.push('nobody can zoom');
  return faults;
})()

'use strict';
// Elements of the page.

const byId = (id) => document.getElementById(id);

// element('p', { class: 'note' }, 'text', child): functions among the properties are listeners
function element(name, properties = {}, ...children) {
  return filled(document.createElement(name), properties, children);
}

function picture(name, properties = {}, ...children) {
  return filled(document.createElementNS('http://www.w3.org/2000/svg', name), properties, children);
}

function filled(it, properties, children) {
  for (const [key, value] of Object.entries(properties)) {
    if (typeof value === 'function') it.addEventListener(key, value);
    else if (value !== null && value !== undefined && value !== false) it.setAttribute(key, value === true ? '' : value);
  }
  it.append(...children.filter((child) => child !== null && child !== undefined && child !== ''));
  return it;
}

const button = (text, pressed, properties = {}) => element('button', { type: 'button', click: pressed, ...properties }, text);

async function copy(text, from) {
  const said = from.textContent;
  try {
    await navigator.clipboard.writeText(text);
    from.textContent = 'Copied';
  } catch {
    const area = element('textarea', { class: 'aside' }, text);
    document.body.append(area);
    area.select();
    from.textContent = document.execCommand('copy') ? 'Copied' : 'Not copied';
    area.remove();
  }
  setTimeout(() => { from.textContent = said; }, 1500);
}

function saveFile(name, bytes) {
  const address = URL.createObjectURL(new Blob([bytes]));
  element('a', { href: address, download: name }).click();
  setTimeout(() => URL.revokeObjectURL(address), 1000);
}

const grouped = (number) => (typeof number === 'bigint' ? number : Math.round(number)).toString().replace(/\B(?=(\d{3})+$)/g, ',');

function duration(seconds) {
  if (!Number.isFinite(seconds) || seconds > 3e9) return 'more than a lifetime';
  const steps = [[1, 'second'], [60, 'minute'], [3600, 'hour'], [86400, 'day'], [31557600, 'year']];
  if (seconds < 10) return seconds < 1 ? 'less than a second' : `${seconds.toFixed(1)} seconds`;
  const [size, name] = steps.filter(([it]) => it <= seconds / 1.5).pop() ?? steps[0];
  const count = Math.round(seconds / size);
  return `${grouped(count)} ${name}${count === 1 ? '' : 's'}`;
}

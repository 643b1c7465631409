// Nodes of the page. What comes from a chart or a door becomes text alone, never markup.

export const byId = id => document.getElementById(id);

/** Says to who reads by ear what a view shows now. Nobody wants a whole table read out. */
export const tell = text => { byId('told').textContent = text; };

/** A node with properties, or attributes where the name has a dash, and parts that are nodes or texts. */
export function made(tag, more = {}, ...parts) {
    const node = document.createElement(tag);
    for (const [name, value] of Object.entries(more)) {
        if (value === undefined || value === false) continue;
        if (name.includes('-') || name === 'role' || name === 'for') node.setAttribute(name, value);
        else node[name] = value;
    }
    node.append(...parts.filter(part => part !== undefined && part !== null));
    return node;
}

const SVG = 'http://www.w3.org/2000/svg';

/** A node of a picture, with attributes. */
export function drawn(tag, more = {}, ...parts) {
    const node = document.createElementNS(SVG, tag);
    for (const [name, value] of Object.entries(more)) node.setAttribute(name, value);
    node.append(...parts);
    return node;
}

/** A choice of [value, text] pairs, below a first one without a value where `blank` is said. */
export function choice(more, pairs, blank) {
    const node = made('select', more);
    fill(node, pairs, blank);
    return node;
}

/** Puts other pairs into a choice, and keeps what was chosen where it is still there. */
export function fill(node, pairs, blank) {
    const chosen = node.value;
    node.replaceChildren();
    if (blank !== undefined) node.append(made('option', {value: ''}, blank));
    for (const [value, text] of pairs) node.append(made('option', {value: String(value)}, text));
    if ([...node.options].some(option => option.value === chosen)) node.value = chosen;
    else node.value = pairs.length === 1 && blank !== undefined ? String(pairs[0][0]) : node.options.length ? node.options[0].value : '';
}

let last = 0;

/** An input below its label, with a hint and a place for a fault, all joined for who reads by ear. */
export function labelled(text, input, hint) {
    const id = input.id || 'field-' + ++last;
    input.id = id;
    const fault = made('span', {className: 'fault', id: id + '-fault'});
    const about = hint ? made('span', {className: 'hint', id: id + '-hint'}, hint) : undefined;
    input.setAttribute('aria-describedby', (hint ? id + '-hint ' : '') + id + '-fault');
    const box = made('div', {className: 'field'}, made('label', {htmlFor: id}, text), input, about, fault);
    input.box = box;
    return box;
}

/** Says what is wrong with an input, or nothing. */
export function wrong(input, text = '') {
    const fault = document.getElementById(input.id + '-fault');
    if (fault) fault.textContent = text;
    if (text) input.setAttribute('aria-invalid', 'true');
    else input.removeAttribute('aria-invalid');
}

/** A table with a caption, heads and rows; a head is its text, or [text, true] above amounts. */
export function table(caption, heads, rows, className = '') {
    const texts = heads.map(each => Array.isArray(each) ? each[0] : each);
    const head = made('tr', {role: 'row'}, ...heads.map((each, place) => {
        const text = texts[place];
        return text === '' ? made('td', {}) : made('th', {scope: 'col', role: 'columnheader', className: each[1] === true ? 'amount' : ''}, text);
    }));
    // On a phone each row is a card, whose cells have the heads before them.
    for (const each of rows) [...each.children].forEach((cell, place) => { if (texts[place]) cell.dataset.head = texts[place]; });
    const made_ = made('table', {className, role: 'table'}, made('caption', {}, caption), made('thead', {role: 'rowgroup'}, head), made('tbody', {role: 'rowgroup'}, ...rows));
    // By its width letters are smaller on paper, where the sheet wouldn't have the whole table.
    made_.style.setProperty('--wide', widthOf(texts, rows).toFixed(1));
    return made('div', {className: 'scroll', tabIndex: 0, role: 'region', 'aria-label': caption}, made_);
}

const AMOUNT = /^-?[\d,]+\.\d\d$/, DAY = /^\d{4}-\d\d-\d\d$/;
const kindOf = part => typeof part !== 'string' ? '' : AMOUNT.test(part) ? 'amount' : DAY.test(part) ? 'day' : '';

/** About how wide a text is, in heights of its letters. */
const wideOf = text => [...text].reduce((all, letter) => all + (/\d/.test(letter) ? .64 : .36), 0);

/**
 * About how wide a table is at least, in heights of its letters. Amounts, days and the words of
 * heads aren't broken; other texts are where they are longer than a word. Bars don't count.
 */
function widthOf(heads, rows) {
    const bold = row => /head|part|sum/.test(row.className) ? 1.1 : 1;
    const least = (row, place) => {
        const text = row.children[place]?.textContent || '', most = kindOf(text) ? Infinity : place ? 4 : 8;
        return text && .8 + Math.min(most, wideOf(text) * bold(row));
    };
    const ofHead = text => .8 + .66 * Math.max(...text.split(' ').map(word => word.length));
    return heads.reduce((all, text, place) => {
        const most = rows.reduce((one, row) => Math.max(one, least(row, place)), 0);
        return all + (most && Math.max(most, ofHead(text)));
    }, 1);
}

/** A row of cells, the first of which heads it. */
export function row(parts, className = '') {
    return made('tr', {className, role: 'row'}, ...parts.map((part, place) => {
        const more = {className: kindOf(part)};
        return place === 0 ? made('th', {scope: 'row', role: 'rowheader', ...more}, part) : made('td', {role: 'cell', ...more}, part);
    }));
}

/** Gives a file to the browser's downloads. */
export function give(name, text, type = 'text/plain') {
    const link = made('a', {href: URL.createObjectURL(new Blob([text], {type})), download: name});
    link.click();
    setTimeout(() => URL.revokeObjectURL(link.href), 10000);
}

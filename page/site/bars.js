// Bars of what is spent, ordered, held and left of an appropriation.

import {drawn, made} from './dom.js';
import {money, sum} from './money.js';

export const PARTS = [['spent', 'Spent'], ['ordered', 'Ordered'], ['held', 'Held'], ['room', 'Left']];

/** A budgetary comparison by funds: a heading each, then a row for each of its sources, then its lines, with cents. */
export function fundsOf(rows, chart) {
    const funds = [...chart.fund].sort((one, other) => one.id - other.id), found = [];
    for (const [label, ...amounts] of rows) {
        if (amounts.length === 0) {
            const {id, name} = funds[found.length];
            found.push({fund: id, name, left: chart.source.filter(source => source.fund === id).length, sources: [], lines: []});
            continue;
        }
        const fund = found.at(-1), [, all, spent, ordered, room] = amounts.map(BigInt);
        if (fund.left-- > 0) fund.sources.push({name: label, estimated: all, came: spent});
        else fund.lines.push({line: Number(label.slice('Line '.length)), all, spent, ordered, room, held: all - spent - ordered - room});
    }
    return found;
}

export const added = lines => Object.fromEntries(['all', 'spent', 'ordered', 'held', 'room'].map(part => [part, sum(lines.map(line => line[part]))]));

/** Whether less than a tenth is left of what was appropriated. */
export const isLow = line => line.all > 0n && line.room * 10n < line.all;

const share = (part, all) => all > 0n ? Number(part * 10000n / all) / 10 : 0;

/** A bar in which the appropriation is the whole width, told to who reads by ear. */
export function bar(line) {
    const said = PARTS.map(([part, text]) => `${text.toLowerCase()} ${money(line[part])}`).join(', ');
    const svg = drawn('svg', {class: 'bar', viewBox: '0 0 1000 10', preserveAspectRatio: 'none', role: 'img', 'aria-label': said});
    let x = 0;
    for (const [part] of PARTS) {
        const width = Math.max(0, Math.min(share(line[part], line.all), 1000 - x));
        if (width) svg.append(drawn('rect', {class: part === 'room' && isLow(line) ? 'room low' : part, x, y: 0, width, height: 10}));
        x += width;
    }
    return svg;
}

export function legend() {
    return made('p', {className: 'legend'}, ...PARTS.map(([part, text]) => made('span', {}, made('i', {className: part}), text)),
        made('span', {}, made('i', {className: 'low'}), 'less than a tenth left'));
}

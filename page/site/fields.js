// The fields of a form: an input for each type of docs/CALLS.md, with the chart's names in its choices, and what each one says.

import {byId, choice, fill, labelled, made, wrong} from './dom.js';
import {today} from './chart.js';
import {cents, money, LARGEST, sum} from './money.js';

// Which objects an account of a call can name, and whether it needs a control line: rule 7 of docs/RULES.md.
const SPENDING = {kinds: ['current', 'capital'], line: true};
const ACCOUNTS = {
    requisition: SPENDING, order: SPENDING, voucher: SPENDING, change_order: {line: true},
    lease: {kinds: ['capital'], line: true}, asset: {kinds: ['capital'], line: false},
    pay_due: {kinds: ['principal', 'interest'], line: true},
};
const FIRST_DAY = '1970-01-01', LAST_DAY = '2199-12-31';
const DOCUMENTS = ['requisition', 'order', 'voucher', 'bill', 'asset', 'bond'];

export class Fault extends Error {
    constructor(input, text) {
        super(text);
        this.input = input;
    }
}

/** What one form asks about: the call, its chart and lists, and the year that its accounts are of. */
export class Context {
    constructor(name, tables, chart, lists) {
        Object.assign(this, {name, call: tables.calls[name], chart, lists, form: byId('form')});
    }

    value(field) {
        // By namedItem, since a field is named `item`, as a method of the collection is.
        const input = this.form.elements.namedItem(field);
        return !input ? '' : input.type === 'checkbox' ? input.checked : input.value;
    }

    /** The fiscal year in which the call posts or holds, by its day, or that which it states. */
    year() {
        const states = this.name !== 'close' && this.call.fields.some(field => field.name === 'year');
        if (states && /^\d{4}$/.test(this.value('year'))) return Number(this.value('year'));
        const on = this.value('on') || today();
        return this.chart.yearOf(on) - (this.value('back') ? 1 : 0);
    }

    needs() {
        if (this.name === 'leave') return this.value('what') === 'mature' ? {kinds: ['current'], line: true} : {line: false};
        return ACCOUNTS[this.name] || {line: false};
    }
}

/** Choices of fund, department and object that follow one another: only accounts with a control line in the year, where one is needed. */
export class Account {
    constructor(context, inputs) {
        Object.assign(this, {context, inputs});
        for (const input of Object.values(inputs)) input.addEventListener('change', () => this.offer());
        this.offer();
    }

    objects(part) {
        const kinds = {principal: ['principal'], interest: ['interest']}[part] || this.context.needs().kinds;
        return this.context.chart.object.filter(row => !kinds || kinds.includes(row.kind));
    }

    has(fund, dept, part) {
        const {chart} = this.context, year = this.context.year();
        return this.objects(part).some(row => chart.lineOf(fund, dept, row.id, year) !== undefined);
    }

    offer() {
        const {context, inputs} = this, {chart} = context, {line} = context.needs(), year = context.year();
        const parts = ['object', 'principal', 'interest'].filter(part => inputs[part]);
        const able = (fund, dept) => parts.length === 0 || parts.every(part => this.has(fund, dept, part));
        if (inputs.fund) {
            fill(inputs.fund, chart.pairs('fund', fund => !line || chart.department.some(dept => able(fund.id, dept.id))), 'Choose');
        }
        const fund = inputs.fund?.value;
        if (inputs.dept) fill(inputs.dept, chart.pairs('department', dept => !line || fund && able(fund, dept.id)), 'Choose');
        const dept = inputs.dept?.value;
        for (const part of parts) {
            const keep = row => !line || fund && dept && chart.lineOf(fund, dept, row.id, year) !== undefined;
            fill(inputs[part], this.objects(part).filter(keep).map(row => [row.id, `${row.id} ${row.name}`]), 'Choose');
        }
    }

    set(fund, dept, object) {
        this.choose({fund, dept, object});
    }

    choose(values) {
        for (const [name, id] of Object.entries(values)) {
            this.inputs[name].value = String(id);
            this.offer();
        }
    }

    /** The control line of what is chosen, or nothing. */
    line(part = 'object') {
        const {fund, dept} = this.inputs, object = this.inputs[part];
        return fund?.value && dept?.value && object?.value ? this.context.chart.lineOf(fund.value, dept.value, object.value, this.context.year()) : undefined;
    }
}

/** The input of a field, by its name and type. */
export function inputOf(field, context) {
    const {chart, name: call} = context, {name, type} = field, more = {name};
    if (type === 'true or false') return made('input', {...more, type: 'checkbox'});
    if (type === 'choice') return choice(more, Object.entries(field.words));
    if (type === 'day') return made('input', {...more, type: 'date', min: FIRST_DAY, max: LAST_DAY});
    if (type === 'month') return made('input', {...more, type: 'month', min: '1970-01', max: '2199-12', placeholder: '2026-07'});
    if (type === 'cents' || type === 'by') return amountInput(more);
    if (type === 'n16' && ['fund', 'dept', 'object', 'principal', 'interest'].includes(name)) return choice(more, [], 'Choose');
    if (name === 'source') return choice(more, chart.source.map(row => [row.id, `${row.id} ${row.name} (${chart.name('fund', row.fund)})`]), 'Choose');
    if (call === 'interfund' && ['from', 'to'].includes(name)) return choice(more, chart.pairs('fund'), 'Choose');
    if (['line', 'from', 'to'].includes(name)) return choice(more, [], 'Choose');
    if (name === 'item') return choice(more, [], 'Choose');
    if (name === 'every') return choice(more, [1, 2, 3, 4, 6, 12].map(months => [months, String(months)]));
    const input = made('input', {...more, inputMode: 'numeric', autocomplete: 'off'});
    if ([...DOCUMENTS, 'vendor'].includes(name)) input.setAttribute('list', 'known-' + name);
    // A vendor can be found by a part of its name.
    if (name === 'vendor') input.inputMode = 'text';
    return input;
}

export function amountInput(more) {
    const input = made('input', {...more, inputMode: 'decimal', autocomplete: 'off', className: 'amount'});
    input.addEventListener('change', () => {
        const found = cents(input.value);
        if (found !== null) input.value = money(found);
        wrong(input, input.value && found === null ? 'This is no amount: write 1234.50 or 1,234.50' : '');
    });
    return input;
}

/** Numbers of documents that may be open, as suggestions. */
export function known(lists, vendors) {
    return [made('datalist', {id: 'known-vendor'}), ...DOCUMENTS.map(kind => made('datalist', {id: 'known-' + kind}, ...lists.of(kind).slice(0, 500).map(each => {
        const who = each.who ? `, ${kind === 'bill' ? `payer ${each.who}` : vendors.say(each.who)}` : '';
        return made('option', {value: String(each.number), label: `${each.key}${who}${each.cents === null ? '' : ', ' + money(each.cents)}`});
    })))];
}

const RANGES = {n16: [0n, 65535n], n32: [0n, 4294967295n], year: [1971n, 2199n]};

/** What an input says for its field, as a value of the call; nothing where it is empty and may be. Throws what is wrong with it. */
export function read(field, input, isNeeded) {
    const {type, label} = field;
    if (type === 'true or false') return input.checked ? true : undefined;
    const text = input.value.trim();
    if (text === '') {
        if (isNeeded) throw new Fault(input, input.tagName === 'SELECT' ? `Choose: ${label}` : `${label} is missing`);
        return undefined;
    }
    if (type === 'day' && !(text >= FIRST_DAY && text <= LAST_DAY)) throw new Fault(input, `The year of the day is ${Number(text.split('-')[0])}: it is from 1970 to 2199`);
    if (type === 'cents' || type === 'by') return readAmount(input, text, type === 'by' ? null : field.name === 'proceeds' ? 0n : 1n);
    if (RANGES[type]) {
        const [least, most] = RANGES[type];
        if (!/^\d{1,10}$/.test(text) || BigInt(text) < least || BigInt(text) > most) throw new Fault(input, `${label} is a number from ${least} to ${most}`);
        return BigInt(text);
    }
    return text;
}

export function readAmount(input, text, least) {
    const found = cents(text);
    if (found === null) throw new Fault(input, `${text} is no amount: write 1234.50 or 1,234.50`);
    if (least !== null && found < least) throw new Fault(input, least === 0n ? 'It isn’t below zero' : 'An amount is more than zero');
    if (found > LARGEST || found < -LARGEST) throw new Fault(input, 'An amount is at most 100,000,000,000.00');
    return found;
}

/** Principals, one a line, or as 20 x 250,000.00. */
export function readPrincipals(field, input) {
    const parts = input.value.split(/\n/).map(line => line.trim()).filter(Boolean).flatMap(line => {
        const many = /^(\d{1,3}) *x *(.+)$/i.exec(line);
        const each = readAmount(input, many ? many[2] : line, 0n);
        return many ? Array(Math.min(Number(many[1]), 121)).fill(each) : [each];
    });
    if (parts.length < field.least || parts.length > field.most) throw new Fault(input, `There are ${field.least} to ${field.most} principals`);
    return parts;
}

/** The principals as a box of lines, with how many there are and what they come to. */
export function principalsOf(field, context) {
    const input = made('textarea', {name: field.name, rows: 4, className: 'amount'});
    const box = labelled(field.label, input, field.hint), said = made('p', {className: 'total', role: 'status'});
    box.append(said);
    input.addEventListener('input', () => {
        try {
            const parts = readPrincipals(field, input);
            said.textContent = `${parts.length} payments, ${money(sum(parts))} in all`;
        } catch {
            said.textContent = '';
        }
    });
    box.readList = () => readPrincipals(field, input);
    return box;
}

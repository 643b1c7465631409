// An adoption's lines or estimates: each of the fund's with a place for its amount, typed or pasted
// from a sheet, with what the year before had beside it, and totals by department.

import {labelled, made, row, table} from './dom.js';
import {fundsOf} from './bars.js';
import {amountInput, Fault, readAmount} from './fields.js';
import {cents, money, sum} from './money.js';

export class Amounts {
    constructor(field, context, {chart, doors}, changed) {
        Object.assign(this, {field, context, chart, doors, changed, before: new Map()});
        this.body = made('div', {});
        this.sums = made('div', {className: 'sums', role: 'status'});
        this.total = made('p', {className: 'total', role: 'status'});
        this.pasted = made('textarea', {name: `paste-${field.name}`, rows: 2, spellcheck: false});
        const how = this.isLines ? 'Rows of a department, an object and an amount, by numbers or names; or of a line’s number and an amount'
            : 'Rows of a source and an amount, by number or name';
        const paste = made('details', {}, made('summary', {}, 'Paste from a sheet'), labelled('Rows', this.pasted, how),
            made('p', {}, made('button', {type: 'button', onclick: () => this.paste()}, 'Put them in')));
        this.said = made('p', {className: 'note', role: 'status'});
        this.box = made('fieldset', {className: 'list'}, made('legend', {}, field.label), made('p', {className: 'hint'}, field.hint || ''), paste, this.said,
            this.body, this.sums, this.total);
        this.box.refill = () => this.refill();
        this.box.readList = () => this.read();
        this.box.say = () => this.say();
    }

    get isLines() {
        return this.field.name === 'lines';
    }

    inputs() {
        return [...this.body.querySelectorAll('input')];
    }

    /** What can have an amount: pairs of an id and its name. */
    pairs() {
        const fund = this.context.value('fund'), year = this.context.year();
        if (!fund) return [];
        return this.isLines ? this.chart.linesOf(year, fund).map(line => [line, this.chart.lineName(line)])
            : this.chart.source.filter(source => source.fund === Number(fund)).map(source => [source.id, source.name]);
    }

    refill() {
        const fund = this.context.value('fund'), year = this.context.year(), now = `${fund} ${year} ${this.chart.isLater(fund, year)}`;
        if (this.body.dataset.of === now) return;
        const old = new Map(this.inputs().map(input => [input.name, input.value]));
        this.body.dataset.of = now;
        this.body.replaceChildren(...this.pairs().map(([id, text]) => {
            const name = `${this.field.name}-${id}`, input = amountInput({name, value: old.get(name) || ''});
            input.dataset.id = id;
            return made('div', {className: 'line'}, labelled(text, input, ' '));
        }));
        this.last(Number(fund), year, now);
    }

    /** What the year before had, beside each amount. */
    async last(fund, year, now) {
        this.before = new Map();
        if (!fund || year <= this.chart.first_year) return;
        const said = await this.doors.look({call: 'report', year: year - 1, kind: 'budget'}).catch(() => null);
        const found = said?.is && fundsOf(said.is.rows, this.chart).find(each => each.fund === fund);
        if (!found || this.body.dataset.of !== now || !this.body.isConnected) return;
        const sources = this.chart.source.filter(source => source.fund === fund);
        this.before = new Map(this.isLines ? found.lines.map(each => [each.line, each.all]) : found.sources.map((each, place) => [sources[place].id, each.estimated]));
        for (const input of this.inputs()) {
            const was = this.before.get(Number(input.dataset.id));
            document.getElementById(input.id + '-hint').textContent = was === undefined ? '' : `${year - 1}: ${money(was)}`;
        }
        this.say();
    }

    read() {
        return this.inputs().filter(input => input.value.trim()).map(input =>
            ({[this.field.parts[0].name]: BigInt(input.dataset.id), amount: readAmount(input, input.value, 1n)}));
    }

    say() {
        let found;
        try {
            found = this.read();
        } catch (fault) {
            if (!(fault instanceof Fault)) throw fault;
            found = [];
        }
        this.sums.replaceChildren(this.isLines && found.length ? this.byDepartment(found) : '');
        const last = [...this.before.values()], was = last.length ? ` (the year before: ${money(sum(last))})` : '';
        this.total.textContent = found.length ? `${this.field.label}: ${money(sum(found.map(each => each.amount)))}${was}` : '';
    }

    byDepartment(found) {
        const depts = [...new Set(this.pairs().map(([line]) => this.chart.line[line].dept))], of = dept => line => this.chart.line[line]?.dept === dept;
        const rows = depts.map(dept => {
            const own = sum(found.filter(each => of(dept)(Number(each.line))).map(each => each.amount));
            const was = sum([...this.before].filter(([line]) => of(dept)(line)).map(([, amount]) => amount));
            return row([this.chart.name('department', dept), money(own), ...(this.before.size ? [money(was), money(own - was)] : [])]);
        });
        const more = this.before.size ? [['The year before', true], ['More', true]] : [];
        return table('By department', ['Department', [this.field.label, true], ...more], rows, 'cards');
    }

    /**
     * Puts the rows of a sheet into the fields; where one can't be read nothing is put in, and it
     * is named.
     */
    paste() {
        const inputs = new Map(this.inputs().map(input => [Number(input.dataset.id), input])), put = new Map(), faults = [];
        this.pasted.value.split(/\r?\n/).forEach((text, place) => {
            const cells = text.split('\t').map(cell => cell.trim()).filter(Boolean);
            if (!cells.length) return;
            const amount = cents(cells.at(-1).replace(/^\$\s*/, '')), id = this.idOf(cells.slice(0, -1));
            if (amount === null || amount < 0n) faults.push(`row ${place + 1}: ${cells.at(-1)} is no amount`);
            else if (!inputs.has(id)) faults.push(`row ${place + 1}: ${cells.slice(0, -1).join(', ') || 'nothing'} is no ${this.isLines ? 'line' : 'source'} of this fund`);
            else if (put.has(id)) faults.push(`row ${place + 1}: ${cells.slice(0, -1).join(', ')} stands twice`);
            else put.set(id, amount);
        });
        if (!inputs.size) faults.unshift('choose a fund first');
        const more = faults.length > 5 ? `; and ${faults.length - 5} more` : '';
        this.said.textContent = faults.length ? `Nothing was put in: ${faults.slice(0, 5).join('; ')}${more}.` : `${put.size} amounts were put in.`;
        if (faults.length) return;
        for (const [id, amount] of put) inputs.get(id).value = amount ? money(amount) : '';
        this.changed();
    }

    /** The line or source that cells name. */
    idOf(cells) {
        const same = (one, other) => String(one).toLowerCase() === String(other).toLowerCase();
        if (cells.length === 1) return this.pairs().find(([id, name]) => same(id, cells[0]) || same(name, cells[0]))?.[0];
        const [dept, part] = cells.slice(-2), {chart} = this;
        return this.isLines ? this.pairs().find(([id]) => {
            const line = chart.line[id];
            const ofClass = line.class === undefined ? [] : [line.class, `class ${line.class}`];
            return [line.dept, chart.name('department', line.dept)].some(each => same(each, dept)) &&
                [line.object, chart.part(line), ...ofClass].some(each => same(each, part));
        })?.[0] : undefined;
    }
}

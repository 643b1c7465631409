// A month by department, as `books month` has it: what was spent in it and in the year so far, what
// is on order, held and left, and a year before.

import {byId, fill, give, made, row, table, tell} from './dom.js';
import {bar, isLow, legend} from './bars.js';
import {dated, today} from './chart.js';
import {sheet} from './cells.js';
import {cents, money} from './money.js';

const AMOUNTS = [['budget', 'Appropriated'], ['month', 'In the month'],
    ['year', 'In the year'], ['on_order', 'On order'], ['held', 'Held'], ['left', 'Left']];
const BEFORE = [['month_before', 'Last year’s month'], ['year_before', 'Last year to then']];

const amountOf = (each, part) => each[part] ? cents(each[part]) : 0n;

export class Month {
    constructor(city) {
        Object.assign(this, city);
        fill(byId('month-dept'), this.chart.pairs('department'), 'All departments');
        byId('month-form').addEventListener('submit', event => {
            event.preventDefault();
            this.changed();
        });
        for (const id of ['month-at', 'month-dept', 'month-lines']) {
            byId(id).addEventListener('change', () => this.changed());
        }
        byId('month-print').addEventListener('click', () => print());
        byId('month-csv').addEventListener('click', () => this.save());
    }

    changed() {
        this.told();
        this.show();
    }

    fromAddress([at, dept]) {
        this.wanted = at || '';
        byId('month-dept').value = dept || '';
    }

    toAddress() {
        return [byId('month-at').value, byId('month-dept').value];
    }

    /** The months that are kept, the last first. Today's is shown first, or the last before it. */
    async offer() {
        const kept = (await this.lists.kept()).filter(each => each.kind === 'month');
        this.kept = kept.sort((one, other) => other.at.localeCompare(one.at));
        const now = this.kept.find(each => each.at <= today().slice(0, 7)) || this.kept[0];
        const chosen = this.wanted || byId('month-at').value || now?.at;
        this.wanted = '';
        fill(byId('month-at'), this.kept.map(each => [each.at, dated(each.at)]));
        if (this.kept.some(each => each.at === chosen)) byId('month-at').value = chosen;
    }

    async show() {
        const turn = this.turn = Symbol(), place = byId('month-table');
        this.found = undefined;
        await this.offer();
        if (turn !== this.turn) return;
        const kept = this.kept.find(each => each.at === byId('month-at').value);
        const missing = 'No month is kept yet: the lists make them one after another.';
        if (!kept) return place.replaceChildren(made('p', {}, missing));
        const said = await this.lists.keptRows(kept).catch(fault => ({fault}));
        if (turn !== this.turn) return;
        if (said.fault) return place.replaceChildren(this.words.failed(said));
        const {names, rows} = said, dept = byId('month-dept').value;
        const all = rows.map(each => Object.fromEntries(names.map((name, at) => [name, each[at]])));
        this.found = {kept, names, rows: rows.filter((_, at) => !dept || all[at].dept === dept)};
        place.replaceChildren(...this.parts(kept, all, dept));
        tell(place.querySelector('h2').textContent);
    }

    parts(kept, all, dept) {
        const title = `${this.chart.city}: ${dated(kept.at)} by department, fiscal year ${kept.year}`;
        // The first row is as `month 2027-01 open`.
        const state = all[0].part.split(' ')[2];
        const funds = [...new Set(all.map(each => each.fund).filter(Boolean))];
        const rows = funds.flatMap(fund => this.ofFund(all.filter(each => each.fund === fund), dept));
        const heads = ['', 'Of the appropriation', ...AMOUNTS.map(([, text]) => [text, true]),
            ['% left', true], ...BEFORE.map(([, text]) => [text, true])];
        const span = `The month is ${state}. Entries 1 to ${kept.entries}.`;
        return [made('h2', {}, title), made('p', {className: 'span'}, span), legend(),
            table(title, heads, rows, 'cards')];
    }

    /** A fund with its departments, their lines where they are asked for, and its sources. */
    ofFund(rows, dept) {
        const of = part => rows.filter(each => each.part === part), [fund] = of('fund');
        const depts = of('department').filter(each => !dept || each.dept === dept);
        if (dept && !depts.length) return [];
        const lines = byId('month-lines').checked ? of('line') : [];
        const parts = depts.flatMap(each => [this.row(each.dept_name, each, 'part'),
            ...lines.filter(line => line.dept === each.dept)
                .map(line => this.row(line.line_name || line.line_part, line))]);
        const sources = dept ? [] : of('source');
        const revenue = sources.map(each => this.row(`${each.source_name} (revenue)`, each));
        const head = dept ? this.blank(rows[0].fund_name) : this.row(fund.fund_name, fund, 'head');
        return [head, ...parts, ...revenue];
    }

    blank(name) {
        return row([name, ...Array(2 + AMOUNTS.length + BEFORE.length).fill('')], 'head');
    }

    row(name, each, className) {
        const isSource = each.part === 'source';
        const its = {all: amountOf(each, 'budget'), spent: amountOf(each, 'year'),
            ordered: amountOf(each, 'on_order'), held: amountOf(each, 'held'),
            room: amountOf(each, 'left')};
        const text = ([part]) => money(amountOf(each, part)), amounts = AMOUNTS.map(text);
        if (!isSource && isLow(its)) amounts.push(made('b', {className: 'low'}, amounts.pop()));
        const made_ = row([name, isSource ? '' : bar(its), ...amounts, each.percent_left,
            ...BEFORE.map(text)], className);
        for (const cell of [...made_.children].slice(2)) cell.className = 'amount';
        return made_;
    }

    save() {
        if (!this.found) return;
        const {kept, names, rows} = this.found;
        give(`month-${kept.at}.csv`, sheet([names, ...rows]), 'text/csv');
    }
}

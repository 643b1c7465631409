// Budget lines of a fiscal year, by fund and department, with bars; and what each document put on a
// line or took off it, which comes to the line's numbers.

import {byId, fill, made, row, table, tell} from './dom.js';
import {added, bar, fundsOf, isLow, legend} from './bars.js';
import {many} from './calls.js';
import {Documents, LedgerRows} from './documents.js';
import {money} from './money.js';

export class Lines {
    constructor(city) {
        Object.assign(this, city);
        this.rows = new LedgerRows(new Documents(city), true);
        fill(byId('lines-fund'), this.chart.pairs('fund'), 'All funds');
        fill(byId('lines-dept'), this.chart.pairs('department'), 'All departments');
        byId('lines-form').addEventListener('submit', event => { event.preventDefault(); this.show(); });
        for (const id of ['lines-year', 'lines-fund', 'lines-dept', 'lines-low']) byId(id).addEventListener('change', () => this.show());
        byId('line-close').addEventListener('click', () => byId('line').close());
    }

    async show() {
        const turn = this.turn = Symbol();
        const year = Number(byId('lines-year').value), place = byId('lines-table');
        const said = await this.doors.look({call: 'report', year, kind: 'budget'}).catch(fault => ({fault}));
        if (turn !== this.turn) return;
        if (!said.is) return place.replaceChildren(this.words.failed(said));
        const {value: fund} = byId('lines-fund'), {value: dept} = byId('lines-dept'), low = byId('lines-low').checked;
        const shown = fundsOf(said.is.rows, this.chart).flatMap(each => each.lines).filter(each => {
            const line = this.chart.line[each.line];
            return line && (!fund || line.fund === Number(fund)) && (!dept || line.dept === Number(dept)) && (!low || isLow(each));
        });
        const rows = [...new Set(shown.map(each => this.chart.line[each.line].fund))].flatMap(id => this.ofFund(id, shown, year));
        const count = `${many(shown.length, 'line')}, as of entry ${said.at}`;
        place.replaceChildren(legend(), table(`${this.chart.city}: budget lines of fiscal year ${year}`, ['Line', 'Of the appropriation', ['Appropriated', true],
            ['Spent', true], ['Ordered', true], ['Held', true], ['Left', true]], rows, 'cards'), made('p', {className: 'hint'}, count));
        tell(`Fiscal year ${year}: ${count}`);
    }

    ofFund(fund, lines, year) {
        const own = lines.filter(each => this.chart.line[each.line].fund === fund), depts = [...new Set(own.map(each => this.chart.line[each.line].dept))];
        return [this.row(this.chart.name('fund', fund), added(own), 'head'), ...depts.flatMap(dept => {
            const of = own.filter(each => this.chart.line[each.line].dept === dept);
            const name = this.chart.name('department', dept);
            return [this.row(name, added(of), 'part'), ...of.map(each => this.row(this.link(each.line, year), each))];
        })];
    }

    link(line, year) {
        return made('button', {type: 'button', className: 'link', title: `Documents of line ${line}`, onclick: () => this.documents(line, year)},
            this.chart.part(this.chart.line[line]));
    }

    row(name, each, className = '') {
        const room = isLow(each) ? made('b', {className: 'low'}, money(each.room)) : money(each.room);
        const made_ = row([name, bar(each), ...['all', 'spent', 'ordered', 'held'].map(part => money(each[part])), room], className);
        made_.lastChild.className = 'amount';
        return made_;
    }

    async documents(line, year) {
        byId('line-name').textContent = `${this.chart.lineInFull(line)}, fiscal year ${year} (line ${line})`;
        byId('line-table').replaceChildren('..');
        byId('line').showModal();
        const found = await this.lists.ofLine(line, year).catch(() => []);
        byId('line-table').replaceChildren(found.length ? this.rows.table('Documents of the line', found) : 'No entry names this line.',
            made('p', {className: 'hint'}, `The list has the entries up to ${this.lists.state.entries}; it is made anew each minute.`));
    }
}

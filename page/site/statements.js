// The ten statements, with names and column heads; printed, and as a sheet. As of now a door says
// seven of them. The others, and those through a month's end or up to a close, are kept beside the
// doors. Those through another day or at another entry are made when they are asked for.

import {sheet} from './cells.js';
import {byId, fill, give, made, row, table, tell} from './dom.js';
import {dated, today} from './chart.js';
import {cents, plain, money} from './money.js';

const HEADS = {
    budget: ['Original budget', 'Final budget', 'Actual', 'Encumbered', 'Left'],
    activities: ['Expenses', 'Charges for services', 'Operating grants', 'Capital grants',
        'Net expense'],
};
// The columns of what `books` prints below these heads; the last of `activities` has the one amount
// of a row.
const COLUMNS = {
    budget: ['adopted', 'final', 'actual', 'on_order', 'left'],
    activities: ['expenses', 'charges', 'operating_grants', 'capital_grants', 'net_expense'],
};
const NO_DOOR = ['classes', 'components', 'major'];
const TOTAL = 'Total fund balances', NOW = 'now', OTHER = 'other';
const SUMS = /^(Total|Net|Fund balance|Change in net)/;
const CHOICES = ['report-year', 'report-kind', 'report-at'];
const SPAN = ['report-through', 'report-entries'];

const isDay = at => at.includes('-');
const valueOf = id => byId(id).value.trim();

export class Statements {
    constructor(city) {
        Object.assign(this, city, {kept: []});
        byId('report-form').addEventListener('submit', event => {
            event.preventDefault();
            this.changed();
        });
        for (const id of [...CHOICES, ...SPAN]) {
            byId(id).addEventListener('change', () => this.changed());
        }
        byId('report-print').addEventListener('click', () => print());
        byId('report-csv').addEventListener('click', () => this.save());
        this.offer();
    }

    async changed() {
        // What is chosen by hand comes before what an address wanted.
        this.wanted = undefined;
        this.spanned();
        await this.show();
        this.told();
    }

    fromAddress([year, kind, at, entries], now) {
        const kinds = [...byId('report-kind').options].map(option => option.value);
        byId('report-year').value = year || now;
        if (kinds.includes(kind)) byId('report-kind').value = kind;
        this.wanted = {at: at || NOW, entries: entries || ''};
    }

    /** Today's year, and now, are left out of the address. */
    toAddress(now) {
        const [year, kind, at] = CHOICES.map(valueOf), [through, entries] = SPAN.map(valueOf);
        const other = through ? [through, entries] : [entries];
        return [year === now ? '' : year, kind, ...(at === OTHER ? other : [at === NOW ? '' : at])];
    }

    /** The days and entries that statements of this year and kind are kept for, and others. */
    offer() {
        const year = Number(valueOf('report-year')), kind = valueOf('report-kind');
        const kept = this.kept.filter(each => each.year === year && each.kind === kind)
            .map(each => each.at).filter(at => at !== NOW);
        const days = kept.filter(isDay).sort().reverse().map(at => [at, `through ${dated(at)}`]);
        const places = kept.filter(at => !isDay(at)).map(at => [at, `at entry ${at}, a close`]);
        fill(byId('report-at'), [[NOW, NOW], [OTHER, 'another day or entry'], ...days, ...places]);
        if (this.wanted) this.choose(this.wanted);
        this.wanted = undefined;
        this.spanned();
    }

    /** Chooses what an address wants: what is kept, or another day or entry. */
    choose({at, entries}) {
        const isKept = [...byId('report-at').options].some(option => option.value === at);
        byId('report-at').value = isKept && !entries ? at : OTHER;
        byId('report-through').value = isDay(at) ? at : '';
        byId('report-entries').value = isDay(at) || at === NOW ? entries : at;
    }

    /** A day and an entry are typed where neither is chosen. */
    spanned() {
        for (const id of SPAN) byId(id).closest('.field').hidden = valueOf('report-at') !== OTHER;
    }

    show() {
        this.shown = this.ask();
        return this.shown;
    }

    async ask() {
        const turn = this.turn = Symbol(), place = byId('report');
        this.made = undefined;
        this.asking?.abort();
        this.asking = new AbortController();
        this.kept = await this.lists.kept();
        if (turn !== this.turn) return this.shown;
        this.offer();
        const wanted = this.asked(), said = await this.said(wanted).catch(fault => ({fault}));
        if (turn !== this.turn) return this.shown;
        if (!said.rows) return place.replaceChildren(this.words.failed(said));
        this.made = {...wanted, heads: HEADS[wanted.kind] || ['Amount'], rows: said.rows};
        place.replaceChildren(...this.parts(this.made, said.at));
        tell(place.querySelector('h2').textContent);
    }

    /** What is chosen: `at` is now, a day or an entry; `entries` may stand beside a day. */
    asked() {
        const [year, kind, at] = CHOICES.map(valueOf), [through, entries] = SPAN.map(valueOf);
        if (at !== OTHER) return {year, kind, at, entries: ''};
        return {year, kind, at: through || entries, entries: through ? entries : ''};
    }

    async said({year, kind, at, entries}) {
        if (!at) throw new Error('Choose a day, or type an entry.');
        if (at === NOW && !NO_DOOR.includes(kind)) return this.ofDoor(Number(year), kind);
        const isIt = each => each.year === Number(year) && each.kind === kind && each.at === at;
        const kept = !entries && this.kept.find(isIt);
        const {names, rows, ...said} = kept ? {...await this.lists.keptRows(kept), entries: kept.entries}
            : await this.ofAsked(year, kind, at, entries);
        return {at: said.entries, rows: this.listed(kind, names, rows)};
    }

    /** A statement that isn't kept. It takes its time in a long history. */
    ofAsked(year, kind, at, entries) {
        byId('report').replaceChildren(made('p', {}, 'The statement is being made ..'));
        const span = isDay(at) ? {through: at, entries} : {entries: at === NOW ? '' : at};
        return this.lists.asked({year, kind, ...span}, this.asking.signal);
    }

    parts({year, kind, at, heads, rows}, entries) {
        const name = byId('report-kind').selectedOptions[0].textContent;
        const title = `${this.chart.city}: ${name}, fiscal year ${year}`;
        const asOf = at === NOW ? `As of ${dated(today())}`
            : isDay(at) ? `Through ${dated(at)}` : `As it stood at entry ${at}`;
        const lines = rows.map(each => row([each.label, ...each.amounts.map(shown)], classOf(each)));
        return [made('h2', {}, title),
            made('p', {className: 'span'}, `${asOf}, entries 1 to ${entries}.`),
            table(title, ['', ...heads.map(head => [head, true])], lines,
                heads.length > 1 ? 'cards' : ''),
            made('p', {className: 'hint'}, 'Amounts in units of money.')];
    }

    async ofDoor(year, kind) {
        const said = await this.doors.look({call: 'report', year, kind});
        const width = (HEADS[kind] || ['']).length, named = row => this.named(row, width);
        return said.is ? {at: said.at, rows: said.is.rows.map(named)} : said;
    }

    /** A row of a door with its line's names; one amount stands in the last column. */
    named([label, ...amounts], width) {
        const found = /^Line (\d+)$/.exec(label), isHead = amounts.length === 0;
        const before = Array(Math.max(0, width - amounts.length)).fill('');
        return {label: found ? this.line(found[1]) : label, amounts: [...before, ...amounts], isHead};
    }

    line(number) {
        return `${this.chart.lineName(number)} (${number})`;
    }

    /** The rows of `books` by their columns' names, below a heading for each section. */
    listed(kind, names, rows) {
        const columns = COLUMNS[kind] || ['amount'], found = [];
        let section = '';
        for (const fields of rows) {
            const each = Object.fromEntries(names.map((name, place) => [name, fields[place]]));
            const blank = columns.map(() => ''), label = each.section;
            if (label && label !== section) found.push({label, amounts: blank, isHead: true});
            section = label;
            const last = columns.length - 1;
            const texts = columns.map((name, place) => each[name] || place === last && each.amount);
            found.push({label: each.line ? this.line(each.line) : each.name,
                amounts: texts.map(text => text ? cents(text) : ''), isHead: false});
        }
        return found;
    }

    /**
     * The statement as comma-separated values, with a column for the fund, so that each row stands
     * for itself.
     */
    async save() {
        await this.shown;
        if (!this.made) return;
        const {year, kind, at, entries, heads, rows} = this.made, lines = [['Fund', 'Row', ...heads]];
        const texts = amounts => amounts.map(amount => amount === '' ? '' : plain(amount));
        let fund = '';
        for (const {label, amounts, isHead} of rows) {
            if (isHead) fund = label;
            else lines.push([label === TOTAL ? '' : fund, label, ...texts(amounts)]);
        }
        const name = [year, kind, ...(at === NOW ? [] : [at]), ...(entries ? [entries] : [])].join('-');
        give(`${name}.csv`, sheet(lines), 'text/csv');
    }
}

const shown = amount => amount === '' ? '' : money(amount);

const classOf = ({label, isHead}) => isHead ? 'head' : SUMS.test(label) ? 'sum' : '';

// An answer in words: what happened, why, and what to do next. What to do is that of docs/RULES.md, with the answer's own values in it.

import {made} from './dom.js';
import {dated} from './chart.js';
import {money} from './money.js';

// Calls that name lines by their numbers. Others name accounts, of which a refusal says the object.
const NAMES_LINES = ['adopt', 'amend', 'transfer', 'line'];

export class Words {
    constructor(tables, chart, lists) {
        Object.assign(this, {tables, chart, lists});
    }

    /** Of the answer to a call: `kind` is ok, no or wait, `text` what happened and `todo` what to do. */
    of(said, call = '') {
        if (said.memory) return {kind: 'wait', text: 'The program had no memory for it.', todo: this.plain(this.tables.replies.memory, said)};
        if (said.disk) return {kind: 'wait', text: 'The disk failed. Nothing was entered.', todo: this.plain(this.tables.replies.disk, said)};
        if (said.form) return this.form(said, call);
        if (said.ok) return {kind: 'ok', text: this.taken(said, call), todo: ''};
        return {kind: 'no', text: this.refused(said.no, call), todo: this.todo(said.no, call)};
    }

    /** What is shown in place of what couldn't be asked. */
    failed(said) {
        return made('p', {className: 'said no', role: 'alert'}, said.fault ? said.fault.message : this.of(said).text);
    }

    form(said, call) {
        const labels = said.name ? this.labelOf(call, said.name) : '';
        const text = {
            fields: `The field “${labels}” is missing, or isn’t in form.`,
            json: 'What was sent isn’t a call.',
            call: 'The program knows no such call.',
            long: 'The call is too long.',
        }[said.form] || 'It was refused as it stands.';
        return {kind: 'no', text: text + ' Nothing was entered.', todo: this.plain(this.tables.replies[said.form] || '', {...said, name: labels})};
    }

    labelOf(call, name) {
        if (name === 'key') return 'Key';
        if (name === 'desk') return 'Desk';
        const fields = this.tables.calls[call]?.fields || [];
        return name === 'on' ? 'Day' : fields.find(field => field.name === name)?.label || name;
    }

    taken(said, call) {
        const drawn = Object.entries(said.ok).flatMap(([name, value]) => {
            if (Array.isArray(value)) return value.length ? [`${name} ${value.join(', ')}`] : [];
            if (call === 'collect') return [`revenue of fiscal year ${value}`];
            return [/principal|interest/.test(name) ? `${name} ${money(value)}` : `${name} ${value}`];
        });
        const start = said.was ? `It was taken before, as entry ${said.was}. Nothing was added.` : `Taken, as entry ${said.at}.`;
        return start + (drawn.length ? ` It is ${drawn.join(', ')}.` : '');
    }

    refused(no, call) {
        const {chart} = this, fund = () => chart.name('fund', no.fund), year = no.year && `fiscal year ${no.year}`;
        const texts = {
            DeskUnknown: () => 'the chart has no such desk.',
            Ahead: () => `this history has ${no.length} entries, and this browser has seen ${no.after}.`,
            KeyReused: () => `this desk has used the key before, for another call: ${this.entry(no.was)}.`,
            NotThisDesk: () => `a desk with the role ${no.role} enters this: ${this.desksOf(no.role)}.`,
            HistoryFull: () => 'the history is full.',
            AmountRange: () => 'an amount is zero, or too large.',
            UnknownName: () => this.unknown(no, call),
            PeriodClosed: () => `${dated(no.month)} is closed.${this.openMonth()}`,
            YearNotOpen: () => `${year} isn’t open yet.`,
            YearClosed: () => `${year} is closed.`,
            Adopted: () => `this fund’s budget of the year was adopted before: ${this.entry(no.was)}.`,
            NotAdopted: () => `the budget of ${fund()} for ${year} isn’t adopted.`,
            DocState: () => `${this.document(no.kind, no.number)} is ${this.state(no)}.`,
            SameHand: () => `${chart.name('desk', no.desk)} entered it, and another desk must do this.`,
            NotOnOrder: () => `${this.document('order', no.order)} has no item ${no.item} with this account.`,
            OverOpen: () => `only ${money(no.open)} of the item is open.`,
            OverReceivable: () => `only ${money(no.left)} is left.`,
            AssetState: () => `asset ${no.asset} is ${{later: 'later than this day', charged: 'depreciated already', void: 'void'}[no.state] || no.state}.`,
            NotDue: () => `the next payment is due on ${dated(no.next)}.`,
            LeaveShort: () => `only ${money(no.left)} of leave is left.`,
            MonthOrder: () => `the next month to close is ${dated(no.next)}.`,
            DebtDue: () => `${this.document('bond', no.bond)} has a payment that is due on ${dated(no.day)} and isn’t paid.`,
            WindowOpen: () => `taxes of the year can come in until ${dated(no.month)} is closed.`,
            Exceeds: () => `${chart.lineInFull(no.line)} has ${money(no.room)} left, and this asks ${money(no.asked)}.`,
            CashShort: () => `${fund()} has ${money(no.cash)} in cash, and this takes ${money(no.asked)}.`,
        };
        return `Refused: ${texts[no.name] ? texts[no.name]() : no.name} Nothing was entered.`;
    }

    desksOf(role) {
        return this.chart.desk.filter(desk => desk.roles.includes(role)).map(desk => `${desk.id} ${desk.name}`).join(', ') || 'the chart has none';
    }

    openMonth() {
        const {next} = this.lists.state;
        return next ? ` The first open month is ${dated(next)}.` : '';
    }

    unknown(no, call) {
        const {kind, id} = no;
        const isLine = kind === 'line' && NAMES_LINES.includes(call);
        if (isLine) return `${this.chart.lineInFull(id)} is no line of this fund and year.`;
        if (kind === 'line') {
            const object = this.chart.find('object', id);
            return object ? `no budget line has this account, with the object ${object.name}.` : 'there is no such budget line in this year.';
        }
        const names = {dept: 'department', fund: 'fund', object: 'object', source: 'source'};
        const row = names[kind] && this.chart.find(names[kind], id);
        return row ? `${names[kind]} ${row.name} can’t be named here.` : `there is no ${names[kind] || kind} ${id}.`;
    }

    state(no) {
        const words = {'other year': 'of another fiscal year', later: 'dated later than this', ended: 'ended: no item of it is live'};
        if (no.kind === 'bond' && no.state === 'paid') return 'paid off';
        return words[no.state] || no.state;
    }

    /** A document by its number, and by its key where the lists have it. */
    document(kind, number) {
        if (kind === 'item') return `item ${number} of the order`;
        const found = this.lists.document(kind, number);
        return `${kind} ${number}${found ? ` (${found.key})` : ''}`;
    }

    /** An entry by what it is, where this browser or the lists know it. */
    entry(place) {
        const found = this.lists.entry(place);
        return found ? `entry ${place}, ${this.tables.calls[found.call].title}, ${found.key}, of ${dated(found.day)}` : `entry ${place}`;
    }

    todo(no, call) {
        const {states, assetStates, refusals} = this.tables;
        const state = no.name === 'DocState' && states.find(([kind, word]) => kind === no.kind && word === no.state);
        if (state) return this.plain(state[2], no);
        const of = call === 'void_voucher' ? 'a void' : 'a disposal';
        const asset = no.name === 'AssetState' && assetStates.find(each => each[0] === no.state && each[1] === of);
        if (asset) return this.plain(asset[2], no);
        return refusals[no.name] ? this.plain(fitting(refusals[no.name].todo, no, call), no) + this.yearBefore(no, call) : '';
    }

    /** An invoice of a closed year that is dated in the next one is an expenditure of that one, unless it says otherwise. */
    yearBefore(no, call) {
        const {next} = this.lists.state;
        if (no.name !== 'PeriodClosed' || call !== 'voucher' || !next) return '';
        const [was, year] = [no.month, next].map(month => this.chart.yearOf(`${month}-01`));
        return was < year ? ` There it counts in fiscal year ${year}, unless “Of the year before” is ticked.` : '';
    }

    /** A text of the docs for a clerk: without references to pages, with the page's names of calls, and with the values of the answer. */
    plain(text, values) {
        const {calls} = this.tables;
        // What is said of replies in files is for who has files.
        const said = text.replace(/ ?\(`?docs[^)]*\)/g, '').replace(/[^.]*`at`[^.]*(\.|$)/g, '')
            .replace(/`asked` less `(room|cash)`/g, (all, less) => money(BigInt(values.asked) - BigInt(values[less])))
            .replace(/`([^`]+)`/g, (all, word) => {
                if (calls[word]) return `“${calls[word].title}”`;
                if (word === 'back') return '“Of the year before”';
                if (word === 'from') return '“From”';
                if (word === 'final') return '“Ends the item”';
                if (word === 'was') return values.was ? this.entry(values.was) : 'entry';
                if (/^(left|open|room|asked|cash)$/.test(word) && values[word] !== undefined) return money(values[word]);
                if (/^(next|month|day)$/.test(word) && values[word]) return dated(values[word]);
                return /^\{/.test(word) ? '' : word;
            }).trim();
        return said && said[0].toUpperCase() + said.slice(1) + (/[.!]$/.test(said) ? '' : '.');
    }
}

/** Of what rules 7, 11 and 17 say what fits this refusal: they say in one cell what to do in several cases. */
function fitting(todo, no, call) {
    const account = no.kind === 'line' && !NAMES_LINES.includes(call), said = todo.split(/(?<=\.) (?=[A-Z])/);
    const kept = said.filter(each => {
        if (/^Kind `line`/.test(each)) return account;
        if (/^correct the number/.test(each)) return !account;
        if (/^`was` is/.test(each)) return false;
        if (/^Of a repayment/.test(each)) return call === 'interfund';
        if (/^What a payer/.test(each)) return call !== 'interfund';
        return true;
    });
    return kept.join(' ').replace(/^Kind `line`[^:]*: no control line has this account, so it can't be spent on; /, '');
}

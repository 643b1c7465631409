// What a call says in a sentence, its amount and its party: for what is asked before it is sent,
// and for what was sent.

import {dated, today} from './chart.js';
import {money, sum} from './money.js';

// What no other call takes back.
const FINAL = ['adopt', 'asset', 'close', 'collect', 'interfund', 'issue', 'lease', 'leave', 'pay', 'pay_due', 'receive', 'write_off'];
// What a call takes back, by its field: its amount is that of the document.
const ENDS = {void_voucher: 'voucher', cancel_order: 'order', withdraw: 'requisition'};

export const isFinal = call => FINAL.includes(call.call);

export const many = (count, one, more = one + 's') => `${count} ${count === 1 ? one : more}`;

/** Days from one day to another. */
export const daysFrom = (from, to) => Math.round((Date.parse(to) - Date.parse(from)) / 86400000);

/** What a payment of a debt comes to. */
export function dueOf([principal, interest]) {
    const all = BigInt(principal) + BigInt(interest);
    return `${money(all)} (${money(principal)} of principal and ${money(interest)} of interest)`;
}

/** The last day of a month, YYYY-MM. */
export const endOf = month => new Date(Date.UTC(Number(month.slice(0, 4)), Number(month.slice(5)), 0)).toISOString().slice(0, 10);

export class Calls {
    constructor({tables, chart, lists, vendors}) {
        Object.assign(this, {tables, chart, lists, vendors});
    }

    /** What a call comes to, in cents, where it has an amount. */
    amount(call) {
        if (call.call === 'adopt') return sum(call.lines.map(line => line.amount));
        if (call.call === 'pay') return this.ofVouchers(call.vouchers);
        if (call.items) return sum(call.items.map(item => item.amount));
        const ended = ENDS[call.call];
        if (ended) return this.lists.document(ended, call[ended])?.cents ?? null;
        const amount = call.amount ?? call.by ?? call.proceeds;
        return amount === undefined ? null : BigInt(amount);
    }

    /** What vouchers come to, where the lists have them all. */
    ofVouchers(numbers) {
        const found = numbers.map(number => this.lists.document('voucher', number));
        return found.every(Boolean) ? sum(found.map(each => each.cents)) : null;
    }

    /** Who is paid, ordered from, or pays; the source or fund where nobody is named. */
    party(call) {
        const {chart, lists} = this, {vendors} = this;
        if (call.vendor !== undefined) return vendors.say(call.vendor);
        if (call.payer !== undefined) return `payer ${call.payer}`;
        if (call.bill !== undefined) {
            const found = lists.document('bill', call.bill);
            return found ? `payer ${found.who}, bill ${call.bill}` : `bill ${call.bill}`;
        }
        if (call.vouchers) return this.payees(call.vouchers);
        if (call.source !== undefined) return chart.name('source', call.source);
        if (call.call === 'close') return this.closed(call);
        if (call.call === 'pay_due') return `bond or lease ${call.bond}, ${chart.name('fund', call.fund)}`;
        if (call.asset !== undefined) return `asset ${call.asset}`;
        if (call.call === 'interfund') return `${chart.name('fund', call.from)} to ${chart.name('fund', call.to)}`;
        if (call.line !== undefined) return chart.lineInFull(call.line);
        if (call.call === 'transfer') return `${chart.lineName(call.from)} to ${chart.lineName(call.to)}`;
        for (const kind of ['voucher', 'order', 'requisition']) {
            const found = call[kind] !== undefined && lists.document(kind, call[kind]);
            if (found) return `${found.who ? vendors.say(found.who) + ', ' : ''}${kind} ${call[kind]}`;
        }
        const dept = call.dept === undefined ? '' : `: ${chart.name('department', call.dept)}`;
        return call.fund !== undefined ? chart.name('fund', call.fund) + dept : dept.slice(2);
    }

    /** The month or the fiscal year that is closed. */
    closed(call) {
        return call.what === 'month' ? dated(call.month) : `fiscal year ${call.year}`;
    }

    payees(numbers) {
        const all = new Set(numbers.map(number => this.lists.document('voucher', number)?.who).filter(Boolean));
        const found = all.size === 1 ? this.vendors.say([...all][0]) : all.size ? many(all.size, 'vendor') : '';
        return `${many(numbers.length, 'voucher')}${found ? ', ' + found : ''}`;
    }

    /** Amount and party, for a line of text. */
    about(call) {
        const amount = this.amount(call);
        return [amount === null ? '' : money(amount), this.party(call)].filter(Boolean).join(', ');
    }

    /**
     * What is about to be done: "Close January 2027, 20 days before it ends". Of a debt it says what is
     * due, its principal and interest, where the lists have them.
     */
    sentence(call, due) {
        const {chart} = this, about = this.about(call), on = `on ${dated(call.on)}`;
        const says = {
            close: () => this.closing(this.closed(call), endOf(call.what === 'month' ? call.month : this.lastMonth(Number(call.year)))),
            pay: () => `Pay ${about}, ${on}`,
            collect: () => `Collect ${about}, ${on}`,
            receive: () => `Receive ${about}, ${on}`,
            adopt: () => `Adopt the budget of ${chart.name('fund', call.fund)} for fiscal year ${call.year}: ${money(this.amount(call))} in ` +
                `${many(call.lines.length, 'line')}, and ${money(sum(call.estimates.map(each => each.amount)))} of estimated revenues`,
            asset: () => call.what === 'dispose' ? `Dispose of asset ${call.asset} for ${money(call.proceeds)}, ${on}` : `Enter a gift: ${about}, ${on}`,
            pay_due: () => `Pay ${due.length ? dueOf(due) : 'what is due'} of bond or lease ${call.bond}, from ${chart.name('fund', call.fund)}, ${on}`,
            issue: () => `Issue a bond: ${about}, in ${many(call.principals.length, 'payment')}, ${on}`,
            lease: () => `Enter a lease: ${about}, in ${many(call.principals.length, 'payment')}, ${on}`,
            write_off: () => `Write off ${about}, ${on}`,
            interfund: () => `Move cash, ${this.word(call)}: ${about}, ${on}`,
            leave: () => `Enter leave, ${this.word(call)}: ${about}, ${on}`,
        };
        return says[call.call] ? says[call.call]() : `${this.tables.calls[call.call].title}: ${about ? about + ', ' : ''}${on}`;
    }

    /** The choice of a call, as its form has it. */
    word(call) {
        return this.tables.calls[call.call].fields.find(field => field.name === 'what').words[call.what].toLowerCase();
    }

    closing(name, end) {
        const left = daysFrom(today(), end);
        if (left >= 0) return `Close ${name}, ${left === 0 ? 'on the day that' : `${many(left, 'day')} before`} it ends`;
        return `Close ${name}, which ended ${many(-left, 'day')} ago`;
    }

    /** The last month of a fiscal year. */
    lastMonth(year) {
        const {first_month: first} = this.chart;
        return first === 1 ? `${year}-12` : `${year}-${String(first - 1).padStart(2, '0')}`;
    }
}

// What a form asks once more before a call is sent: what can't be undone, a day that is far away,
// and an invoice that looks like another.

import {dated, today} from './chart.js';
import {daysFrom, endOf, isFinal, many} from './calls.js';

const FAR = 31; // days

export class Slips {
    constructor({chart, lists, calls, vendors, doors}) {
        Object.assign(this, {chart, lists, calls, vendors, doors});
    }

    /**
     * What is said of a call before it is sent, and the doubts that want a tick each; nothing where
     * it can go at once.
     */
    async of(call) {
        const doubts = [this.day(call), ...await this.invoice(call), ...this.order(call)].filter(Boolean);
        if (!isFinal(call) && !doubts.length) return null;
        const due = call.call === 'pay_due' ? await this.due(Number(call.bond)).catch(() => []) : [];
        return {sentence: this.calls.sentence(call, due), isFinal: isFinal(call), notes: this.leaves(call), doubts};
    }

    /** What the next payment of a debt comes to, where the lists know it. */
    async due(bond) {
        const said = await this.doors.look({call: 'bond', bond});
        return (await this.lists.debt(bond, said.is.next)).due;
    }

    /** What a close leaves behind, by the lists. */
    leaves(call) {
        if (call.call !== 'close') return [];
        const month = call.what === 'month' ? call.month : this.calls.lastMonth(Number(call.year)), until = endOf(month);
        const count = kind => many(this.lists.of(kind).filter(each => each.day <= until).length, kind);
        const owed = `${count('voucher')} through ${dated(until)} may still be owed.`;
        if (call.what !== 'month' || month !== this.calls.lastMonth(this.chart.yearOf(`${month}-01`))) return [owed];
        return [owed, `The month ends its fiscal year: ${count('requisition')} may lapse, and ${count('order')} may be carried or lapse.`];
    }

    /** A day in another fiscal year than today's, or far away. */
    day(call) {
        const now = today(), away = daysFrom(now, call.on), year = this.chart.yearOf(call.on), current = this.chart.yearOf(now);
        const far = `${many(Math.abs(away), 'day')} ${away < 0 ? 'ago' : 'from today'}`;
        if (year !== current) return `The day is ${dated(call.on)}, ${far}. It is in fiscal year ${year}, and today is in ${current}.`;
        return Math.abs(away) >= FAR ? `The day is ${dated(call.on)}, ${far}.` : '';
    }

    /**
     * The same invoice, letters in upper or lower case, at any desk, by the lists and by what this
     * browser sent. Under its own key the program finds it.
     */
    async invoice(call) {
        if (call.call !== 'voucher') return [];
        const key = call.key.toLowerCase(), desk = Number(call.desk);
        const found = (await this.lists.invoices(key)).filter(each => each.state !== 'void' && !(each.key === call.key && each.desk === desk));
        const listed = new Set(found.map(each => each.number)), name = id => this.chart.name('desk', id);
        const own = this.sent(key, call.key).filter(each => !listed.has(each.number));
        return [...found, ...own].map(each => `Desk ${name(each.desk)} entered ${each.key} on ${dated(each.day)}, as voucher ${each.number}` +
            `${each.state ? ', which is ' + each.state : ''}. This looks like the same invoice.`);
    }

    /** Invoices of this browser with a key but for its letters' case, which the lists may not have yet. */
    sent(key, other) {
        const taken = this.doors.kept().filter(each => each.call === 'voucher' && each.reply?.ok && each.key !== other && each.key.toLowerCase() === key);
        const isVoid = number => this.doors.kept().some(each => each.call === 'void_voucher' && each.reply?.ok && JSON.parse(each.text).voucher === number);
        return taken.map(each => ({desk: this.doors.me.desk, key: each.key, day: each.on, number: each.reply.ok.voucher})).filter(each => !isVoid(each.number));
    }

    /** An invoice of another vendor than the order's. */
    order(call) {
        if (call.call !== 'voucher') return [];
        const numbers = [...new Set(call.items.filter(item => item.order !== undefined).map(item => Number(item.order)))];
        return numbers.map(number => this.lists.document('order', number)).filter(found => found && Number(found.who) !== Number(call.vendor))
            .map(found => `Order ${found.number} (${found.key}) is of ${this.vendors.say(found.who)}, and the invoice is of ${this.vendors.say(call.vendor)}.`);
    }
}

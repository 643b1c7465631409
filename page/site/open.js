// What is open: documents by the lists, each with its state as a door has it now.

import {byId, fill, made, row, table} from './dom.js';
import {dueOf} from './calls.js';
import {dated} from './chart.js';
import {money} from './money.js';

const KINDS = [['requisition', 'Requisitions'], ['order', 'Orders'], ['voucher', 'Vouchers to be paid'], ['bill', 'Bills'], ['asset', 'Assets'],
    ['bond', 'Bonds and leases']];
const MORE = 40, HELD = 'held';
// What can be done with a document of a kind: the call, and what its button says.
const NEXT = {requisition: [['withdraw', 'Withdraw'], ['order', 'Place an order']], order: [['change_order', 'Change'], ['cancel_order', 'Cancel']],
    voucher: [['void_voucher', 'Void']], bill: [['collect', 'Collect'], ['write_off', 'Write off']], asset: [['asset', 'Dispose of it', {what: 'dispose'}]],
    bond: [['pay_due', 'Pay']]};

export class States {
    constructor(chart) {
        this.chart = chart;
    }

    isOpen(kind, is) {
        return {order: () => is.items.some(item => item.state === 'live'), requisition: () => is.state === 'open', voucher: () => is.state === 'open',
            bill: () => is.left !== '0', asset: () => is.state === HELD, bond: () => is.next !== ''}[kind]();
    }

    /** An order's item: its number, its line, and what is open of it. */
    item(each, place) {
        return `${place + 1}: ${this.chart.lineName(each.line)}, ${each.state === 'live' ? `${money(each.open)} open, of ${each.year}` : each.state}`;
    }

    /** The state of a document in words. */
    say(kind, is) {
        return {
            order: () => is.items.map((each, place) => this.item(each, place)).join('; '),
            requisition: () => `${is.state}, of ${is.year}: ` + is.items.map(each => `${this.chart.lineName(each.line)} ${money(each.amount)}`).join('; '),
            voucher: () => `${is.state}, ${money(is.amount)}, of ${is.year}`,
            bill: () => `${money(is.left)} left of ${this.chart.name('source', is.source)} ${is.levy_year}`,
            asset: () => `${is.state}, cost ${money(is.cost)}, depreciation ${money(is.depreciation)}`,
            bond: () => `${money(is.outstanding)} owed, ` + (is.next ? `next payment ${dated(is.next)}` : 'paid off'),
        }[kind]();
    }
}

export class Open {
    constructor(city) {
        Object.assign(this, city);
        fill(byId('open-kind'), KINDS);
        byId('open-form').addEventListener('submit', event => { event.preventDefault(); this.show(); });
        byId('open-kind').addEventListener('change', () => this.show());
        byId('open-more').addEventListener('click', () => this.onward());
    }

    async show() {
        const turn = this.turn = Symbol();
        byId('open-said').textContent = 'Asking for what is open ..';
        const kind = byId('open-kind').value, find = byId('open-find').value.trim().toLowerCase();
        await this.lists.load().catch(() => {});
        if (turn !== this.turn) return;
        const who = each => kind === 'bill' ? String(each.who ?? '') : this.vendors.cell(each.who);
        const has = each => !find || [each.key, each.day, String(each.number), who(each)].some(text => text.toLowerCase().includes(find));
        // The books' list of what is open has no assets: of those the lists have all, each with its state.
        const isOpen = each => kind !== 'asset' || !each.state || each.state === HELD;
        this.left = this.lists.of(kind).filter(each => isOpen(each) && has(each));
        this.rows = [];
        this.kind = kind;
        byId('open-table').replaceChildren();
        await this.more();
    }

    /** More documents. The keyboard stays at the button, or is at their table where there are no more. */
    async onward() {
        await this.more();
        if (document.activeElement !== document.body) return;
        const more = byId('open-more'), shown = byId('open-table').querySelector('.scroll');
        (more.hidden ? shown : more)?.focus({preventScroll: true});
    }

    /** Asks a door for the states of the next documents, a few at a time. */
    async more() {
        const {kind, turn} = this, until = this.rows.length + MORE;
        byId('open-more').hidden = true;
        byId('open-said').textContent = 'Asking for their states ..';
        while (this.left.length && this.rows.length < until) {
            const asked = this.left.splice(0, 4);
            const rows = await Promise.all(asked.map(each => this.stated(kind, each)));
            if (turn !== this.turn) return;
            for (const {each, is, now} of rows) if (is && this.states.isOpen(kind, is)) this.rows.push(this.row(kind, each, is, now));
        }
        const who = kind === 'bill' ? 'Payer' : 'Vendor';
        const name = KINDS.find(([each]) => each === kind)[1], heads = ['Number', 'Day', 'Key', who, ['Amount', true], 'Now', ''];
        byId('open-table').replaceChildren(this.rows.length ? table(name, heads, this.rows, 'cards') : '');
        byId('open-said').textContent = `${this.rows.length || 'None'} open${this.left.length ? ', and more that may be' : ''}. ` +
            `The list has the entries up to ${this.lists.state.entries}.`;
        byId('open-more').hidden = this.left.length === 0;
    }

    /** A document with its state as a door has it, and that in words; of a debt with what its next payment pays. */
    async stated(kind, each) {
        const {is} = await this.doors.look({call: kind, [kind]: each.number}).catch(() => ({}));
        if (!is) return {each};
        const {due} = kind === 'bond' ? await this.lists.debt(each.number, is.next).catch(() => ({due: []})) : {due: []};
        return {each, is, now: this.states.say(kind, is) + (due.length ? `, of ${dueOf(due)}` : '')};
    }

    row(kind, each, is, now) {
        const {calls} = this.tables, able = NEXT[kind].filter(([call]) => this.roles.includes(calls[call].role));
        const next = able.map(([call, text, more = {}]) => made('button', {type: 'button', className: 'small', 'aria-label': `${text}: ${kind} ${each.number}`,
            onclick: () => this.begin(call, {...more, [kind]: each.number})}, text));
        if (kind === 'order') next.push(made('a', {href: `#paper/order/${each.number}`}, 'Purchase order'));
        // Of several assets of an invoice each has its own cost.
        const amount = kind === 'asset' ? is.cost : each.cents, who = kind === 'bill' ? String(each.who ?? '') : this.vendors.cell(each.who);
        return row([String(each.number), each.day, each.key, who, amount === null ? '' : money(amount), now, made('span', {}, ...next)]);
    }
}

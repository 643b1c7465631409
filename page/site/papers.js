// Paper: a purchase order, the remittance list of a payment run, and a receipt, each a page that
// prints. #paper/order/12, #paper/run/40 or #paper/run/40+41, and #paper/receipt/41 are their
// addresses: an order's number, and the places of the entries.

import {byId, made, row, table, tell} from './dom.js';
import {dated} from './chart.js';
import {many} from './calls.js';
import {money, sum} from './money.js';

const KINDS = {pay: ['run', 'Remittance list'], collect: ['receipt', 'Receipt'], receive: ['receipt', 'Receipt'], order: ['order', 'Purchase order']};

export class Papers {
    constructor(city) {
        Object.assign(this, city);
        byId('paper-print').addEventListener('click', () => print());
    }

    /** A way to the paper of what was taken, or nothing. */
    link(call, reply) {
        const kind = KINDS[call.call];
        if (!kind) return '';
        const number = call.call === 'order' ? reply.ok.order : this.ofFamily(call, reply).join('+');
        return made('a', {href: `#paper/${kind[0]}/${number}`}, kind[1]);
    }

    /** The entry of a call; of a payment run in several calls the entries of those that were taken. */
    ofFamily(call, reply) {
        const all = call.family ? this.doors.kept().filter(each => each.family === call.family && each.reply?.ok).map(each => each.reply) : [reply];
        return all.map(each => each.was ?? each.at);
    }

    async show([kind, number]) {
        const place = byId('paper-sheet'), turn = this.turn = Symbol();
        place.replaceChildren('..');
        const made_ = await {order: () => this.order(number), run: () => this.run(number), receipt: () => this.receipt(number)}[kind]?.()
            .catch(fault => [made('p', {className: 'said no'}, fault.message)]);
        if (turn !== this.turn) return;
        place.replaceChildren(...(made_ || [made('p', {}, 'There is no such paper.')]));
        tell(place.firstElementChild.textContent);
    }

    head(title, ...facts) {
        return [made('h2', {}, `${this.chart.city}: ${title}`), made('dl', {className: 'facts'}, ...facts.filter(([, text]) => text)
            .flatMap(([name, text]) => [made('dt', {}, name), made('dd', {}, text)]))];
    }

    vendor(number) {
        const name = this.vendors.name(number);
        return made('address', {}, ...[name ? `${name} (vendor ${number})` : `Vendor ${number}`, ...this.vendors.address(number)].map(line => made('span', {}, line)));
    }

    foot() {
        return made('p', {className: 'signed'}, 'Signed');
    }

    /** An order, open or ended, with what changes made of each item and what is open of it now. */
    async order(number) {
        const found = await this.ordered(Number(number));
        const said = await this.doors.look({call: 'order', order: Number(number)}), now = said.is?.items || [], {items} = found;
        const isChanged = items.some(item => item[4]), heads = isChanged ? [['Ordered', true], ['Changes', true]] : [];
        const open = item => item?.state === 'live' ? money(item.open) : item?.state || '';
        const rows = items.map(([fund, dept, object, cents, by], place) => row([String(place + 1), this.chart.account(fund, dept, object),
            ...(isChanged ? [money(cents), money(by)] : []), money(cents + by), open(now[place])]));
        // The state of an item that isn't open stands where its amount would.
        for (const each of rows) each.lastChild.className = 'amount';
        const all = place => sum(items.map(item => item[place])), parts = isChanged ? [money(all(3)), money(all(4))] : [];
        rows.push(row(['', 'Total', ...parts, money(all(3) + all(4)), ''], 'sum'));
        return [...this.head(`purchase order ${number}`, ['Order', found.key], ['Day', dated(found.day)], ['Entered by', this.chart.name('desk', found.desk)]),
            this.vendor(found.who), table('Items', ['Item', 'Account', ...heads, ['Amount', true], ['Open now', true]], rows, 'cards'),
            made('p', {className: 'hint'}, `What is open is that of entry ${said.at}. Invoices name order ${number}.`), this.foot()];
    }

    /** An order by the lists, or by what this browser has just entered. */
    async ordered(number) {
        const row = (await this.lists.rows('orders').catch(() => [])).find(each => each[5] === number), own = this.lists.document('order', number);
        if (!row && !own) throw new Error(`Order ${number} isn’t in the lists yet, or there is none: they are made anew each minute.`);
        if (!row) return {...own, items: own.items.map(item => [...item.slice(0, 4).map(Number), 0])};
        const [, day, desk, key, who, , items] = row;
        return {day, desk, key, who, items};
    }

    /** The invoices that a payment run paid, of one call or of several, by vendor. */
    async run(number) {
        const places = number.split('+').map(Number), entries = [];
        for (const place of places) entries.push(await this.paid(place));
        const invoices = await this.lists.allInvoices(), found = entries.flatMap(each => paidBy(each, invoices));
        const vendors = [...new Set(found.map(each => each.vendor))].sort((one, other) => one - other);
        const rows = vendors.flatMap(vendor => {
            const of = found.filter(each => each.vendor === vendor);
            return [row([this.vendors.cell(vendor) || 'Not listed', '', '', totalOf(of)], 'part'),
                ...of.map(each => row(['', String(each.number), each.key, totalOf([each])]))];
        });
        rows.push(row(['Total', many(found.length, 'voucher'), '', totalOf(found)], 'sum'));
        const days = [...new Set(entries.map(each => dated(each.day)))].join(', ');
        return [...this.head('remittance list', ['Payment run', entries.map(each => each.key).join(', ')], ['Day', days],
            [places.length === 1 ? 'Entry' : 'Entries', places.join(', ')]),
            table('Vouchers paid', ['Vendor', 'Voucher', 'Invoice', ['Amount', true]], rows, 'cards'), this.foot()];
    }

    /** A payment by its entry: what the lists have of it, or this browser. */
    async paid(place) {
        const own = this.doors.kept().find(({call, reply}) => call === 'pay' && reply?.ok && (reply.was ?? reply.at) === place);
        const entry = await this.lists.entryAt(place);
        if (!entry && !own) throw new Error(`Entry ${place} isn’t in the lists yet: they are made anew each minute.`);
        return {place, key: entry?.key ?? own.key, day: entry?.day ?? own.on, call: own && JSON.parse(own.text)};
    }

    async receipt(place) {
        const found = await this.lists.receipt(Number(place)) || this.ownReceipt(Number(place));
        if (!found) throw new Error(`Entry ${place} is no receipt, or isn’t in the lists yet: they are made anew each minute.`);
        return [...this.head('receipt', ['Number', found.key], ['Day', dated(found.day)], ['Received', money(found.cents)],
            ['From', found.payer ? `payer ${found.payer}` : ''], ['For', this.chart.name('source', found.source)], ['Bill', found.bill ? String(found.bill) : ''],
            ['By', this.chart.name('desk', found.desk)], ['Entry', String(place)]), this.foot()];
    }

    /** The receipt of a call of this browser that the lists don't have yet. */
    ownReceipt(place) {
        const own = this.doors.kept().find(({call, reply}) => ['collect', 'receive'].includes(call) && reply?.ok && (reply.was ?? reply.at) === place);
        if (!own) return undefined;
        const call = JSON.parse(own.text), bill = call.bill && this.lists.document('bill', call.bill);
        return {key: call.key, day: call.on, desk: call.desk, bill: call.bill, payer: bill?.who, source: call.source ?? bill?.source, cents: call.amount};
    }
}

/**
 * The vouchers that an entry paid. Where the lists don't have the entry yet, this browser has its
 * call; they have the vouchers but for those of the last minute.
 */
function paidBy({place, call}, invoices) {
    const listed = invoices.filter(each => each.ended === place);
    if (listed.length) return listed;
    const known = new Map(invoices.map(each => [each.number, each]));
    const unknown = number => ({number, vendor: null, key: 'not in the lists yet', cents: null});
    return (call?.vouchers || []).map(number => known.get(number) || unknown(number));
}

/** What vouchers come to; nothing where an amount isn't known. */
function totalOf(vouchers) {
    return vouchers.some(each => each.cents === null) ? '' : money(sum(vouchers.map(each => each.cents)));
}

// A payment run: the vouchers that may be owed through a day, by fund with its cash and what it
// lacks, ticked all, by vendor or by fund, and sent as calls of at most so many with keys of one
// family.

import {choice, fill, labelled, made, row, table} from './dom.js';
import {many} from './calls.js';
import {Fault} from './fields.js';
import {money, sum} from './money.js';

const CASH = 100000;

export class Run {
    constructor(field, context, {doors, vendors, me}, changed) {
        Object.assign(this, {field, context, doors, vendors, me, changed, cash: new Map(), ticked: new Set()});
        const {chart} = context, filter = () => this.show();
        this.through = made('input', {type: 'date', name: 'run-through', onchange: filter});
        this.vendor = choice({name: 'run-vendor', onchange: filter}, [], 'All vendors');
        this.fund = choice({name: 'run-fund', onchange: filter}, chart.pairs('fund'), 'All funds');
        const tick = made('button', {type: 'button', onclick: () => this.tickAll(true)}, 'Tick all shown');
        const untick = made('button', {type: 'button', onclick: () => this.tickAll(false)}, 'Untick all shown');
        this.more = made('input', {name: 'vouchers-more', autocomplete: 'off'});
        this.rows = made('div', {className: 'run'});
        this.funds = made('div', {className: 'run-funds', role: 'status'});
        this.total = made('p', {className: 'total', role: 'status'});
        this.box = made('fieldset', {className: 'list'}, made('legend', {}, field.label),
            made('div', {className: 'fields'}, labelled('Entered through', this.through, 'The day of the payment where it is empty'), labelled('Vendor', this.vendor), labelled('Fund', this.fund)),
            made('p', {}, tick, ' ', untick), this.rows, labelled('Others, by number', this.more, 'Those that were entered in the last minute: 12, 13'),
            this.funds, this.total);
        this.box.readList = () => this.read();
        this.box.say = () => this.say();
        this.box.refill = () => this.ask();
        this.rows.addEventListener('change', event => this.tick(event.target));
        this.renew();
    }

    /** Takes newer lists. What is ticked stays, where it is still listed. */
    renew() {
        this.all = this.context.lists.of('voucher').reverse();
        const known = new Set(this.all.map(each => each.number));
        this.ticked = new Set([...this.ticked].filter(number => known.has(number)));
        const numbers = [...new Set(this.all.map(each => each.who))].sort((one, other) => one - other);
        const chosen = this.vendor.value;
        fill(this.vendor, numbers.map(number => [number, this.vendors.cell(number)]), 'All vendors');
        if (!chosen) this.vendor.value = '';
        const back = this.stay();
        this.render();
        back();
        this.say();
    }

    /** Gives what leads back to where the clerk is in the rows, once they are made anew. */
    stay() {
        const {rows} = this, {activeElement: at} = document, place = () => rows.querySelector('.scroll'), top = place()?.scrollTop;
        const isAt = rows.contains(at), {name} = at;
        return () => {
            if (place()) place().scrollTop = top || 0;
            if (isAt) (name ? rows.querySelector(`[name="${name}"]`) : place())?.focus({preventScroll: true});
        };
    }

    /** What a draft had ticked, where it is still listed. */
    restore({ticked}) {
        this.ticked = new Set(ticked);
        this.renew();
    }

    /** Vouchers that were paid aren't ticked any more. */
    took(numbers) {
        for (const number of numbers) this.ticked.delete(number);
        this.renew();
    }

    isOwn(each) {
        return Number(each.desk) === Number(this.me.desk);
    }

    shown() {
        const through = this.through.value || this.context.value('on'), vendor = this.vendor.value, fund = this.fund.value;
        return this.all.filter(each => (!through || each.day <= through) && (!vendor || Number(each.who) === Number(vendor)) &&
            (!fund || each.items?.some(item => Number(item[0]) === Number(fund))));
    }

    show() {
        this.render();
        this.changed();
    }

    render() {
        this.on = this.context.value('on');
        const shown = this.shown(), rows = shown.map(each => this.row(each));
        this.rows.replaceChildren(rows.length ? table('Vouchers that may be owed', ['Voucher', 'Pay', 'Day', 'Key', 'Vendor', 'Fund', ['Amount', true], ''], rows, 'cards')
            : made('p', {}, this.all.length ? 'No voucher is of that day, vendor and fund.' : 'No voucher is listed.'));
    }

    row(each) {
        const number = String(each.number), isOwn = this.isOwn(each);
        const tick = made('input', {type: 'checkbox', name: 'voucher-' + number, value: number, disabled: isOwn, checked: this.ticked.has(each.number),
            'aria-label': `Voucher ${number}, ${each.key}`});
        const funds = [...this.parts(each).keys()].map(fund => this.context.chart.name('fund', fund)).join(', ');
        return row([number, tick, each.day, each.key, this.vendors.cell(each.who), funds, money(each.cents), isOwn ? 'this desk entered it' : '']);
    }

    tick(input) {
        if (!/^voucher-\d+$/.test(input.name)) return;
        this.ticked[input.checked ? 'add' : 'delete'](Number(input.value));
    }

    tickAll(isOn) {
        for (const each of this.shown()) {
            if (isOn && !this.isOwn(each)) this.ticked.add(each.number);
            else this.ticked.delete(each.number);
        }
        for (const input of this.rows.querySelectorAll('input:not([disabled])')) input.checked = isOn;
        this.changed();
    }

    /** What a voucher takes of each fund. */
    parts(each) {
        const funds = new Map();
        for (const [fund, , , cents] of each.items || []) funds.set(fund, (funds.get(fund) || 0n) + BigInt(cents));
        return funds;
    }

    chosen() {
        return this.all.filter(each => this.ticked.has(each.number));
    }

    read() {
        const {field, more} = this;
        if (!/^[\d\s,]*$/.test(more.value)) throw new Fault(more, 'Numbers with commas between them');
        const all = [...this.chosen().map(each => BigInt(each.number)), ...(more.value.match(/\d+/g) || []).map(BigInt)];
        if (new Set(all).size < all.length) throw new Fault(more, 'A voucher is named twice');
        if (all.length < field.least) throw new Fault(this.rows.querySelector('input:not([disabled])') || more, 'No voucher is ticked');
        return all;
    }

    /** Asks a door for the cash of the funds. */
    async ask() {
        const {chart, lists} = this.context, year = Math.max(this.context.year(), ...lists.state.files.entries);
        const found = await Promise.all(chart.fund.map(async ({id}) => {
            const said = await this.doors.look({call: 'account', basis: 'fund', year, fund: id, account: CASH}).catch(() => null);
            return [id, said?.is ? BigInt(said.is.balance) : null];
        }));
        this.cash = new Map(found);
        this.say();
    }

    /** What is ticked, by fund, beside the cash. */
    say() {
        if (this.on !== this.context.value('on')) this.render();
        const chosen = this.chosen(), asked = new Map();
        for (const each of chosen) for (const [fund, cents] of this.parts(each)) asked.set(fund, (asked.get(fund) || 0n) + cents);
        const rows = [...asked].sort(([one], [other]) => one - other).map(([fund, cents]) => this.ofFund(fund, cents));
        this.funds.replaceChildren(rows.length ? table('Cash of the funds', ['Fund', ['Cash', true], ['Ticked', true], ['Then left', true], ''], rows, 'cards') : '');
        const calls = Math.ceil(chosen.length / this.field.most);
        this.total.textContent = chosen.length ? `${chosen.length} ticked, ${money(sum(chosen.map(each => each.cents)))}` +
            (calls > 1 ? `. They are sent as ${calls} calls of at most ${this.field.most}` : '') : '';
    }

    /** What is ticked of a fund, with its cash and what that lacks. */
    ofFund(fund, cents) {
        const cash = this.cash.get(fund), known = cash !== undefined && cash !== null, lacks = known && cents > cash ? cents - cash : 0n;
        const made_ = row([this.context.chart.name('fund', fund), known ? money(cash) : 'not known', money(cents), known ? money(cash - cents) : '',
            lacks ? made('b', {className: 'low'}, 'lacks ' + money(lacks)) : ''], lacks ? 'short' : '');
        made_.children[1].className = 'amount';
        return made_;
    }

    /**
     * The calls of a run: one under its key, or several under keys of one family, which no taken
     * call has.
     */
    calls(call, kept) {
        const {most} = this.field, own = kept.filter(each => each.reply?.ok && each.call === 'pay').map(each => each.key);
        if (call.vouchers.length <= most && !own.includes(call.key)) return [call];
        const used = own.filter(key => key.startsWith(call.key + '-')).map(key => Number(key.slice(call.key.length + 1)) || 0);
        const first = Math.max(0, ...used) + 1, parts = [];
        for (let at = 0; at < call.vouchers.length; at += most) parts.push(call.vouchers.slice(at, at + most));
        return parts.map((vouchers, place) => ({...call, key: `${call.key}-${first + place}`, vouchers}));
    }
}

/** The vouchers of a payment that a refusal is about, in words. */
export function refusedVouchers(call, no, lists, vendors, words) {
    const all = call.vouchers.map(number => lists.document('voucher', number) || {number});
    const isMeant = {
        DocState: each => no.kind === 'voucher' && each.number === no.number,
        SameHand: each => Number(each.desk) === no.desk,
        CashShort: each => each.items?.some(item => item[0] === no.fund),
        UnknownName: each => no.kind === 'voucher' && each.number === no.id,
    }[no.name];
    const meant = isMeant ? all.filter(isMeant) : [];
    if (!meant.length) return '';
    const named = meant.slice(0, 20).map(each => `${each.number}` + (each.key ? ` (${each.key}, ${vendors.say(each.who)}, ${money(each.cents)})` : ''));
    const start = no.name === 'CashShort' ? `Of the ${many(all.length, 'voucher')} of this call these are paid from it: ` : 'The voucher is: ';
    return start + named.join('; ') + (meant.length > 20 ? `; and ${meant.length - 20} more` : '') + '. None of this call was paid.';
}

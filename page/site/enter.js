// The form of a call: its fields, its key, what it comes to, and the room of the lines that it
// would post or hold in. What can't be undone is said in a sentence first, and sent by a second
// button.

import {byId, fill, labelled, made, wrong} from './dom.js';
import {local, today} from './chart.js';
import {dueOf, endOf} from './calls.js';
import {Drafts, set} from './drafts.js';
import {json, money} from './money.js';
import {Account, Context, Fault, inputOf, known, principalsOf, read} from './fields.js';
import {Amounts} from './amounts.js';
import {Items} from './items.js';
import {refusedVouchers, Run} from './run.js';
import {Room} from './room.js';
import {Slips} from './slips.js';

const ON = {name: 'on', type: 'day', label: 'Day'};
const REFERS = ['requisition', 'order', 'voucher', 'bill', 'asset', 'bond'];

export class Enter {
    constructor(city) {
        Object.assign(this, city);
        this.room = new Room(this.doors, this.chart);
        this.slips = new Slips(this);
        this.drafts = new Drafts(this.me);
        byId('call').addEventListener('change', () => { this.show(); this.chose(); });
        byId('form').addEventListener('submit', event => this.submit(event));
        for (const kind of ['input', 'change']) byId('form').addEventListener(kind, event => this.touched(event));
        for (const kind of ['visibilitychange', 'focus', 'pageshow']) addEventListener(kind, () => this.wake());
        setInterval(() => this.wake(), 30000);
    }

    /** Takes newer lists into what numbers suggest, and into a payment run. */
    renew() {
        byId('known').replaceChildren(...known(this.lists, this.vendors));
        this.run?.renew();
    }

    /** A change by the clerk: it is kept, so that another view or a reload doesn't lose it. */
    touched({target}) {
        if (target.name === 'on') this.ownDay = target.value !== today();
        if (target.name === 'key') this.ownKey = target.value !== '';
        this.changed();
        this.keep();
    }

    keep() {
        if (this.context) this.drafts.keep(this.context.name, byId('form'), this.ownDay, this.ownKey, this.run?.ticked);
    }

    /**
     * Where a night has passed over an open page its form has the new day, unless the clerk chose
     * one.
     */
    wake() {
        const on = byId('form').elements.on;
        if (!on || this.ownDay || on.value === today()) return;
        on.value = today();
        this.preset();
        this.changed();
    }

    /** Offers the calls of the desk's roles. */
    offer(roles) {
        const mine = Object.entries(this.tables.calls).filter(([, call]) => roles.includes(call.role));
        fill(byId('call'), mine.map(([name, call]) => [name, call.title]));
        this.renew();
        this.show();
    }

    /** Shows the form of a call anew, with some fields filled in. */
    begin(name, values) {
        byId('call').value = name;
        this.drafts.forget(name);
        this.show();
        for (const [field, value] of Object.entries(values)) {
            const input = byId('form').elements.namedItem(field);
            input.value = value;
            input.dispatchEvent(new Event('change', {bubbles: true}));
        }
    }

    show() {
        const name = byId('call').value, form = byId('form');
        form.replaceChildren();
        this.unprepare();
        this.context = this.run = undefined;
        this.ownDay = false;
        if (!name) return;
        const context = this.context = new Context(name, this.tables, this.chart, this.lists);
        this.boxes = [];
        const head = made('div', {className: 'fields'});
        form.append(head);
        this.add(ON, head);
        form.elements.on.value = today();
        if (context.call.paper) {
            head.append(labelled(context.call.paper, made('input', {name: 'paper', autocomplete: 'off'}), 'It becomes part of the key'));
        }
        context.call.fields.filter(field => field.type !== 'list').forEach(field => this.add(field, head));
        this.account();
        context.call.fields.filter(field => field.type === 'list').forEach(field => this.addList(field, form));
        const key = made('input', {name: 'key', maxLength: 40, autocomplete: 'off', spellcheck: false});
        this.ownKey = false;
        form.append(labelled('Key', key, 'The one reference that an entry keeps. Under it the call can be taken once only'),
            made('p', {className: 'total', id: 'total', role: 'status'}), made('div', {id: 'room', role: 'status'}),
            made('p', {className: 'buttons'}, made('button', {className: 'go', type: 'submit'}, 'Send'),
                made('button', {type: 'button', onclick: () => this.empty()}, 'Empty the form')));
        this.preset();
        this.changed();
        const draft = this.drafts.of(name);
        if (draft) this.restore(draft);
    }

    /** What was half filled in. */
    restore(draft) {
        this.drafts.fill(draft, byId('form'), () => this.items?.more.click());
        this.run?.restore(draft);
        this.ownKey = draft.ownKey;
        this.changed();
    }

    empty() {
        this.drafts.forget(this.context.name);
        this.show();
        byId('form').elements.on.focus();
    }

    /** What most often stands in a field, where the page knows it. */
    preset() {
        const {elements} = byId('form'), {name} = this.context;
        for (const field of ['year', 'levy_year']) {
            if (name !== 'close' && elements[field] && !elements[field].value) elements[field].value = this.chart.yearOf(elements.on.value);
        }
        if (name !== 'close' || this.isPreset(elements)) return;
        // A month or a year is proposed once it has ended: nothing opens it again.
        const next = this.nextMonth(), year = this.chart.first_year + this.lists.state.years, now = today();
        if (next && endOf(next) < now) elements.month.value = next;
        if (endOf(this.calls.lastMonth(year)) < now) elements.year.value = year;
    }

    /** The first open month by the lists, and by what this browser closed since they were made. */
    nextMonth() {
        const closed = this.doors.kept().filter(each => each.call === 'close' && each.reply?.ok).map(each => JSON.parse(each.text).month);
        let {next} = this.lists.state;
        while (next && closed.includes(next)) next = monthAfter(next);
        return next;
    }

    /** Whether the clerk chose what to close. */
    isPreset({month, year}) {
        return Boolean(month.value || year.value);
    }

    add(field, parent) {
        const input = inputOf(field, this.context), box = labelled(field.label + (field.optional && input.type !== 'checkbox' ? ' (optional)' : ''), input, field.hint);
        box.field = field;
        if (REFERS.includes(field.name)) {
            box.append(made('p', {className: 'refers', role: 'status'}));
            input.addEventListener('change', () => this.refer(field.name, input, box));
        }
        if (field.name === 'vendor') this.nameVendor(input, box);
        this.boxes.push(box);
        parent.append(box);
    }

    /**
     * The name of the vendor whose number is typed, and numbers by a part of a name; the number
     * itself where one vendor alone has that part.
     */
    nameVendor(input, box) {
        const place = made('p', {className: 'refers', role: 'status'}), say = () => { place.textContent = this.vendors.beside(input.value.trim()); };
        box.append(place);
        input.addEventListener('input', () => {
            const found = this.vendors.like(input.value);
            byId('known-vendor').replaceChildren(...found.map(([number, name]) => made('option', {value: String(number), label: name})));
            say();
        });
        input.addEventListener('change', () => {
            const found = /^\d*$/.test(input.value.trim()) ? [] : this.vendors.like(input.value, 2);
            if (found.length === 1) input.value = String(found[0][0]);
            say();
        });
    }

    addList(field, form) {
        const box = this.listOf(field);
        box.field = field;
        this.boxes.push(box);
        form.append(box);
    }

    listOf(field) {
        const changed = () => { this.changed(); this.keep(); };
        if (field.name === 'items') {
            this.items = new Items(field, this.context, this, changed);
            return this.items.box;
        }
        if (field.parts === 'n32') {
            this.run = new Run(field, this.context, this, changed);
            this.lists.load().then(() => this.renew(), () => {});
            return this.run.box;
        }
        return field.parts === 'cents' ? principalsOf(field, this.context) : new Amounts(field, this.context, this, changed).box;
    }

    /** The choices of an account at the top of the form, and of the lines of a fund. */
    account() {
        const {context} = this, {elements} = byId('form'), {name} = context;
        const parts = ['fund', 'dept', 'object', 'principal', 'interest'].filter(part => elements[part]);
        this.chosen = parts.length ? new Account(context, Object.fromEntries(parts.map(part => [part, elements[part]]))) : undefined;
        const lines = ['line', ...(name === 'transfer' ? ['from', 'to'] : [])].filter(part => elements[part]);
        this.linesOffered = () => {
            const pairs = this.chart.linesOf(context.year(), elements.fund?.value).map(line => [line, this.chart.lineName(line)]);
            for (const part of lines) fill(elements[part], elements.fund?.value ? pairs : [], 'Choose');
        };
        if (lines.length) this.linesOffered();
    }

    /** Says what a number names, as a door has it now. */
    async refer(kind, input, box) {
        const place = box.querySelector('.refers'), number = input.value.trim();
        place.textContent = '';
        if (!/^\d{1,10}$/.test(number)) return;
        const found = this.lists.document(kind, number), asked = input.value, ofItems = kind === 'order' && this.context?.name === 'change_order';
        if (ofItems && found) this.orderItems(found, found.items.map((item, at) => `${at + 1}: ${this.chart.account(...item)}`));
        const said = await this.doors.look({call: kind, [kind]: Number(number)}).catch(() => null);
        if (!said || input.value !== asked || !place.isConnected) return;
        const now = said.is ? this.states.say(kind, said.is) : this.words.of(said).text.replace(' Nothing was entered.', '');
        place.textContent = [found?.key, this.whose(kind, found)].filter(Boolean).join(', ') + (found ? ': ' : '') + now;
        if (kind === 'bill' && said.is?.left > 0 && byId('form').elements.amount) place.append(' ', this.allLeft(said.is.left));
        if (kind === 'bond' && this.context?.name === 'pay_due' && said.is?.next) await this.debt(number, said.is.next, input, place);
        if (ofItems && said.is) this.orderItems(found, said.is.items.map((each, at) => this.states.item(each, at)));
    }

    /** The vendor or payer of a document. */
    whose(kind, found) {
        if (!found?.who) return '';
        return kind === 'bill' ? `payer ${found.who}` : this.vendors.say(found.who);
    }

    /** Puts what is left of a bill into the form. */
    allLeft(left) {
        return made('button', {type: 'button', className: 'small', onclick: () => set(byId('form').elements.amount, money(left))}, 'All that is left');
    }

    /** The accounts of a debt's last payment, and what is due of its principal and interest. */
    async debt(number, next, input, place) {
        const {due, accounts} = await this.lists.debt(number, next).catch(() => ({due: [], accounts: []})), {elements} = byId('form');
        if (input.value.trim() !== number || !place.isConnected) return;
        if (due.length) place.textContent += `, of ${dueOf(due)}`;
        const parts = ['fund', 'dept', 'principal', 'interest'], isOther = (part, at) => elements[part].value && elements[part].value !== String(accounts[at]);
        // What the clerk chose stays, and a form that stays as it is keeps what was prepared of it.
        if (!accounts.length || parts.some(isOther) || parts.every(part => elements[part].value)) return;
        this.chosen.choose(Object.fromEntries(parts.map((part, at) => [part, accounts[at]])));
        this.changed();
    }

    /** A change of an order names an item, or has the only one: its account is that of the order. */
    orderItems(found, texts) {
        const item = byId('form').elements.namedItem('item');
        fill(item, texts.map((text, place) => [place + 1, text]), 'Choose');
        if (!item.value && texts.length === 1) item.value = '1';
        item.onchange = () => {
            const account = found?.items[Number(item.value) - 1];
            if (account) this.chosen.set(...account.slice(0, 3));
        };
        item.onchange();
    }

    /**
     * After each change: what stands with the word that is chosen, the choices of the year, the
     * key, the total and the room.
     */
    changed() {
        const {context} = this, form = byId('form');
        if (!context) return;
        this.unprepare();
        const what = context.value('what');
        for (const box of this.boxes) box.hidden = Boolean(box.field.only && !box.field.only.includes(what));
        const state = [context.year(), what, context.value('fund')].join();
        if (state !== this.state || this.shown !== context) {
            [this.state, this.shown] = [state, context];
            this.chosen?.offer();
            this.linesOffered();
            for (const box of this.boxes) box.refill?.();
            for (const box of this.boxes) box.offer?.();
        }
        if (!this.ownKey) form.elements.key.value = this.key();
        for (const box of this.boxes) box.say?.();
        this.room.show(context, () => tried(() => this.read(false), call => call));
    }

    /**
     * The key by what the clerk has: each part is that field's value. It is empty while one of them
     * is.
     */
    key() {
        let whole = true;
        const made = this.context.call.key.replace(/\{([\w/]+)\}/g, (all, names) => {
            const shown = names.split('/').filter(name => !this.boxes.find(box => box.field.name === name)?.hidden);
            const found = shown.map(name => this.context.value(name)).find(Boolean);
            if (!found) whole = false;
            return String(found ?? '').trim().replace(/[^!-~]+/g, '-');
        });
        return whole ? made : '';
    }

    /** The call that the form says. Where it needn't be whole what is missing is left out. */
    read(isWhole) {
        const {context} = this, form = byId('form');
        const call = {call: context.name, desk: BigInt(this.me.desk), key: form.elements.key.value.trim()};
        for (const box of this.boxes) {
            if (box.hidden) continue;
            const {field} = box;
            const input = box.querySelector('input,select,textarea');
            const found = field.type === 'list' ? box.readList(isWhole) : read(field, input, isWhole && !field.optional);
            if (found !== undefined) call[field.name] = found;
        }
        if (!isWhole) return call;
        if (!/^[!-~]{1,40}$/.test(call.key)) throw new Fault(form.elements.key, 'A key has 1 to 40 letters, digits and marks, without a blank');
        for (const [one, other] of [['from', 'to']]) {
            if (call[one] !== undefined && call[one] === call[other]) throw new Fault(form.elements[other], 'It differs from the one above');
        }
        return call;
    }

    /** The calls of the form: one, or those of a payment run. */
    readAll() {
        const call = this.read(true), form = byId('form');
        const calls = this.run ? this.run.calls(call, this.doors.kept()) : [call];
        if (calls.some(each => each.key.length > 40)) throw new Fault(form.elements.key, 'The keys of a run get a number behind it: it is too long');
        for (const each of calls) {
            const other = this.doors.waiting().find(one => one.key === each.key && one.text !== json(each));
            if (other) throw new Fault(form.elements.key, 'A call with this key has no answer yet: wait for it, or take another key');
        }
        return calls;
    }

    async submit(event) {
        event.preventDefault();
        const turn = this.turn = Symbol();
        for (const input of byId('form').elements) if (input.id) wrong(input);
        try {
            const calls = this.readAll(), whole = this.run ? {...calls[0], vouchers: calls.flatMap(call => call.vouchers)} : calls[0];
            const asked = await this.slips.of(whole);
            if (turn !== this.turn) return;
            if (asked) this.prepare(asked, calls);
            else this.enter(calls);
        } catch (fault) {
            this.fail(fault);
        }
    }

    fail(fault) {
        if (fault instanceof Fault) {
            wrong(fault.input, fault.message);
            fault.input.focus();
            this.say({kind: 'no', text: `Nothing was sent. ${fault.message}.`, todo: ''}, '');
        } else {
            const text = `Nothing was sent: the browser can’t keep the call (${fault.message}).`;
            this.say({kind: 'no', text, todo: 'Forget answered calls below “Sent”, then send it again.'}, '');
        }
    }

    /** Writes calls down, and sends them. */
    enter(calls) {
        const family = calls.length > 1 ? `${calls[0].key} ..` : undefined;
        try {
            for (const call of calls) this.doors.enter({call: call.call, key: call.key, on: call.on, text: json(call), about: this.calls.about(call), family});
        } catch (fault) {
            this.fail(fault);
        }
    }

    /** Says what is about to be done. A second button sends it, once each doubt has its tick. */
    prepare({sentence, isFinal, notes, doubts}, calls) {
        const ticks = doubts.map((doubt, place) => {
            const tick = made('input', {type: 'checkbox', id: `doubt-${place}`});
            return made('p', {className: 'doubt'}, tick, made('label', {htmlFor: tick.id}, doubt + ' It is right so.'));
        });
        const said = made('p', {className: 'fault', role: 'alert'}), place = byId('prepared');
        const go = () => {
            const open = place.querySelector('.doubt input:not(:checked)');
            if (open) {
                said.textContent = 'Read the sentence, and tick it where it is right.';
                return open.focus();
            }
            this.unprepare();
            this.enter(calls);
        };
        const back = () => { this.unprepare(); byId('form').querySelector('.go').focus(); };
        const more = calls.length > 1 ? [`It is sent as ${calls.length} calls, ${calls[0].key} to ${calls.at(-1).key}.`] : [];
        place.replaceChildren(made('p', {className: 'sentence', id: 'sentence'}, sentence + '.'),
            ...[...notes, ...more].map(note => made('p', {}, note)), isFinal ? made('p', {className: 'hint'}, 'No call takes it back.') : '', ...ticks, said,
            made('p', {className: 'buttons'}, made('button', {type: 'button', className: 'go', onclick: go}, isFinal ? 'Yes, send it' : 'Send it so'),
                made('button', {type: 'button', onclick: back}, 'Back to the form')));
        place.hidden = false;
        place.focus();
        place.scrollIntoView({block: 'nearest'});
    }

    unprepare() {
        this.turn = undefined;
        byId('prepared').hidden = true;
        byId('prepared').replaceChildren();
    }

    /** Says an answer above the others. */
    say({kind, text, todo}, key, ...more) {
        const said = made('div', {className: 'said ' + kind}, key ? made('b', {}, key + ' ') : '', text + ' ', todo ? made('p', {}, todo) : '', ...more);
        byId('said').prepend(said);
        said.scrollIntoView({block: 'nearest'});
        while (byId('said').children.length > 20) byId('said').lastChild.remove();
    }

    async answered(call, reply) {
        const said = JSON.parse(call.text), about = call.about || this.calls.about(said);
        const which = reply.no && said.vouchers ? refusedVouchers(said, reply.no, this.lists, this.vendors, this.words) : '';
        if (reply.ok) this.lists.took(said, reply.ok);
        if (reply.no?.was) await this.lists.find(reply.no.was).catch(() => {});
        const {kind, text, todo} = this.words.of(reply, call.call);
        const what = reply.ok ? ` ${[about, local(call.made)].filter(Boolean).join(', ')}.` : '';
        this.say({kind, text: text + what, todo: [which, todo].filter(Boolean).join(' ')}, call.key,
            reply.ok ? this.papers.link(call, reply) : '');
        if (reply.ok) this.done(call);
        if (reply.ok || which) this.run?.renew();
    }

    /**
     * Begins a new form where what this one says was taken. Of a payment run what wasn't taken
     * stays ticked.
     */
    done(call) {
        if (this.context?.name !== call.call) return this.drafts.took(call);
        const form = byId('form');
        if (this.run) this.run.took(JSON.parse(call.text).vouchers);
        const isDone = call.family ? !this.run?.ticked.size : form.elements.key?.value === call.key;
        if (!isDone) return this.keep();
        const isAt = [form, byId('prepared')].some(part => part.contains(document.activeElement)) || document.activeElement === document.body;
        this.drafts.forget(call.call);
        this.show();
        if (isAt) form.elements.on.focus({preventScroll: true});
    }
}

/** The month after one, as YYYY-MM. */
function monthAfter(month) {
    const months = Number(month.slice(0, 4)) * 12 + Number(month.slice(5));
    return `${Math.floor(months / 12)}-${String(months % 12 + 1).padStart(2, '0')}`;
}

/** What a function gives of what another one reads, or nothing where that can't be read yet. */
function tried(reads, gives) {
    try {
        return gives(reads());
    } catch (fault) {
        if (fault instanceof Fault) return '';
        throw fault;
    }
}

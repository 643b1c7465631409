// The room of the lines that a form would post or hold in, asked of a door while it is filled in. It decides nothing: the program does,
// when the call is sent.

import {byId, made, row, table} from './dom.js';
import {money} from './money.js';

export class Room {
    constructor(doors, chart) {
        Object.assign(this, {doors, chart, turn: 0});
    }

    /** Shows the room a moment after the last change. */
    show(context, read) {
        const turn = ++this.turn;
        clearTimeout(this.timer);
        this.timer = setTimeout(() => this.ask(context, read(), turn), 300);
    }

    async ask(context, call, turn) {
        const place = byId('room');
        if (!place) return;
        const lines = call ? await this.asked(context, call).catch(() => new Map()) : new Map();
        const found = await Promise.all([...lines].map(async ([id, asked]) => {
            const [line, year] = id.split(' ').map(Number);
            const said = await this.doors.look({call: 'line', line, year}).catch(() => null);
            return said?.is && {line, year, asked, room: BigInt(said.is.room)};
        }));
        if (turn !== this.turn) return;
        const known = found.filter(Boolean), short = known.filter(each => each.asked > each.room);
        place.replaceChildren();
        if (!known.length) return;
        const rows = known.map(each => this.row(each));
        place.append(table('Room of the lines', ['Line', 'Year', ['Room', true], ['Asked', true], ['Then left', true], ''], rows, 'cards'));
        if (short.length) {
            const lacks = short.map(each => `${this.chart.lineInFull(each.line)} lacks ${money(each.asked - each.room)}`).join('; ');
            const many = short.length === 1 ? 'One line lacks' : `${short.length} lines lack`;
            place.append(made('p', {className: 'said no'}, `${many} room, so this would be refused: ${lacks}.`));
        }
    }

    row({line, year, asked, room}) {
        const lacks = asked > room ? made('b', {className: 'low'}, 'lacks ' + money(asked - room)) : '';
        const made_ = row([this.chart.lineInFull(line), String(year), money(room), asked < 0n ? 'adds ' + money(-asked) : money(asked),
            money(room - asked), lacks], lacks && 'short');
        made_.children[3].className = 'amount';
        return made_;
    }

    /** What the call asks of each line and year, by "line year". */
    async asked(context, call) {
        const year = context.year(), lines = new Map();
        const add = (line, of, cents) => {
            if (line !== undefined) lines.set(`${line} ${of}`, (lines.get(`${line} ${of}`) || 0n) + cents);
        };
        const of = (each, in_ = year) => this.chart.lineOf(each.fund, each.dept, each.object, in_);
        for (const item of call.items || []) {
            add(of(item), year, item.amount - (item.order === undefined ? 0n : await this.freed(item)));
        }
        if (call.call === 'order' && call.requisition !== undefined) {
            const said = await this.doors.look({call: 'requisition', requisition: Number(call.requisition)});
            if (said.is?.state === 'open' && said.is.year === year) for (const item of said.is.items) add(item.line, year, -BigInt(item.amount));
        }
        if (call.call === 'lease' || call.call === 'leave' && call.what === 'mature') add(of(call), year, call.amount || 0n);
        if (call.call === 'transfer') {
            add(call.from, year, call.amount || 0n);
            add(call.to, year, -(call.amount || 0n));
        }
        if (call.call === 'amend' && call.line !== undefined) add(call.line, year, -(call.by || 0n));
        if (call.call === 'change_order' && call.object !== undefined) add(of(call), year, call.by || 0n);
        return lines;
    }

    /** What an invoice frees of the item of an order that it is of. */
    async freed(item) {
        if (item.item === undefined) return 0n;
        const said = await this.doors.look({call: 'order', order: Number(item.order)}), found = said.is?.items[Number(item.item) - 1];
        if (!found || found.state !== 'live') return 0n;
        const open = BigInt(found.open);
        if (item.final) return open;
        const amount = item.recorded ?? item.amount;
        return amount < open ? amount : open;
    }
}

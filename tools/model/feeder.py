"""An exact model of `solve`, `cert`, `fault`, `ladder` and the words of large circuits. Whole numbers alone."""
import os
import sys
sys.path.insert(0, os.path.dirname(os.path.abspath(__file__)))
import controls
import derived
import fault
import ladder
import large
from bases import base_records
from certified import CASES, Certified
from network import Network
from procedure import Fault, Procedure
from ready import check_ready
from script import Refused, Script


def quoted(field):
    """A field of a record as CSV has it."""
    return '"%s"' % field.replace('"', '""') if any(it in field for it in ',"\r\n') else field


class Run:
    """What the words of a command line write, and the status."""
    end = []         # the lines behind a script that is done to its end

    def __init__(self, files, words):
        self.files, self.words, self.out, self.number, self.made = files, words, [], 0, []

    def master(self):
        return self.words[1]

    def solve(self, circuit, options):
        """Does a Solve; gives the status of a fault, whose record is written."""
        raise NotImplementedError

    def bases(self, circuit, options):
        self.out += base_records(circuit, options['voltagebases'])

    def finish(self, script):
        """What is done behind the last command of the script; gives the status of a fault."""
        self.out += self.end

    def state(self, circuit, options, hour=0):
        """The certified state of a circuit as it is."""
        net = Network(circuit, options['hertz'], hour)
        found = Procedure(net, options['maxiterations'], options['tolerance'])
        made = Certified(net, found.x, found.inverse)
        made.steps = found.steps
        self.made.append(made)
        return made

    def fault(self, status, *fields):
        self.out.append(','.join(quoted(it) for it in ('fault',) + fields))
        return status

    def run(self):
        script = Script(self.files, self.solve, self.bases)
        try:
            ended = script.read(self.master(), 0, self.master())
            status = self.finish(script) if ended is None else ended
        except Refused as e:
            status = e.place + (e.cause,)
        if status == 'absent':
            status = self.master(), 0, 'absent file'
        if isinstance(status, tuple):
            status = self.fault(3, 'script', status[0], str(status[1]), status[2])
        return ''.join(line + '\n' for line in self.out).encode(), status or 0


class Solve(Run):
    """`solve MASTER`: the records of each settle, hour by hour."""
    act = staticmethod(controls.act_record)

    def solve(self, circuit, options):
        for hour, sampled, queue in controls.hours(circuit, options):
            self.number += 1
            status = self.settle(circuit, options, hour, sampled, queue)
            if status:
                return status
            self.settled(controls.positions(circuit))
        self.settled(controls.pending(queue))
        return None

    def settled(self, records):
        self.out += records

    def settle(self, circuit, options, hour, sampled, queue):
        def solved(turn):
            made = self.state(circuit, options, hour)
            return made, self.round(made, hour, turn)
        try:
            for records in controls.settle(sampled, queue, options['maxcontroliter'], solved, self.act):
                self.out += records
        except Fault as f:
            self.refused(f, hour, queue.acts)
            return self.fault(f.status, *f.fields)
        except controls.Undecided as f:
            return self.fault(11, 'undecided', *f.fields)
        except controls.Limit as f:
            return self.fault(12, 'control limit', str(f.acts))
        return None

    def round(self, made, hour, turn):
        return made.records(self.number, hour, turn)

    def refused(self, fault, hour, turn):
        """What is written of a state that isn't certified."""


class Cert(Solve):
    """`cert MASTER`: the blocks of a certificate."""
    act = staticmethod(controls.act_line)
    end = ['end']

    def round(self, made, hour, turn):
        return made.block(self.number, hour, turn)

    def refused(self, fault, hour, turn):
        if hasattr(fault, 'tried'):
            self.out += fault.tried.block(self.number, hour, turn)

    def bases(self, circuit, options):
        pass

    def settled(self, records):
        pass

    def run(self):
        text, status = super().run()
        return (text if text.startswith(b'fault') else b'cert 2\n' + text), status


class Short(Run):
    """`fault MASTER BUS KIND`: one snapshot of the circuit of a short circuit."""

    def solve(self, circuit, options):
        return None

    def bases(self, circuit, options):
        pass

    def finish(self, script):
        bus, kind = self.words[2].encode().lower().decode(), self.words[3]
        if not script.has:
            return self.master(), 0, 'no circuit'
        absent = fault.missing(script.circuit, bus, kind)
        if absent:
            return self.fault(14, 'no such node', '%s.%d' % absent)
        try:
            made = self.state(fault.circuit_of(script.circuit, bus, kind), script.options)
        except Fault as f:
            return self.fault(f.status, *f.fields)
        except Refused as f:
            raise Refused(f.cause, f.place or (self.master(), 0))
        self.out += made.records(1, 0, 0) + fault.records(made, bus, kind)
        return None


class Ladder(Run):
    """`ladder MASTER`: each Solve as one snapshot at the script's positions, with a sweep beside it."""

    def solve(self, circuit, options):
        self.number += 1
        offending = ladder.first_offending(circuit)
        if offending:
            return self.fault(15, 'not radial', offending)
        try:
            made = self.state(circuit, options)
        except Fault as f:
            return self.fault(f.status, *f.fields)
        self.out += made.records(self.number, 0, 0) + controls.positions(circuit)
        self.out.append(ladder.record(circuit, options, made))
        return None


class Large(Solve):
    """`large MASTER`: as `solve`, of a radial circuit of any size."""

    def solve(self, circuit, options):
        offending = large.first_offending(circuit)
        return self.fault(15, 'not radial', offending) if offending else super().solve(circuit, options)

    def state(self, circuit, options, hour=0):
        net = Network(circuit, options['hertz'], hour, True)
        made = large.Large(net, options['maxiterations'], options['tolerance'])
        self.made.append(made)
        return made


class LargeCert(Large, Cert):
    """`large-cert MASTER`: the blocks of a certificate of derived rows."""

    def run(self):
        text, status = super().run()
        return text.replace(b'cert 2', b'cert 3', 1), status


class Tested(Large):
    """What a script is refused for before its certificate is asked for."""

    def settle(self, circuit, options, hour, sampled, queue):
        check_ready(circuit, options['hertz'], True)

    def settled(self, records):
        pass

    def bases(self, circuit, options):
        pass


class LargeCheck(Large):
    """`large-check MASTER CERTIFICATE`: judges a certificate of derived rows."""
    act = staticmethod(controls.act_line)

    def run(self):
        text, status = Tested(self.files, self.words).run()
        if status:
            return text, status
        try:
            self.reader = derived.Reader(self.files.get(self.words[2]))
            text, status = super().run()
            if not status:
                self.reader.finish()
                text = b'certificate,accepted,%d\n' % self.reader.blocks
            return text, status
        except derived.Broken as it:
            return b'fault,certificate,%d,%s\n' % (it.line, it.rule.encode()), 13

    def state(self, circuit, options, hour=0):
        net = Network(circuit, options['hertz'], hour, True)
        self.block = self.reader.due()
        made = derived.Judged(net, self.block, self.due)
        self.reader.blocks += 1
        return made

    def settle(self, circuit, options, hour, sampled, queue):
        def solved(turn):
            self.due = self.number, hour, turn
            return self.state(circuit, options, hour), None
        try:
            for records in controls.settle(sampled, queue, options['maxcontroliter'], solved, self.act):
                if records is not None:
                    self.test_acts(records)
            self.test_acts([])
        except controls.Undecided:
            raise derived.Broken(self.block.behind(), 'undecided')
        except controls.Limit:
            self.test_acts([])
            raise derived.Broken(self.block.behind(), 'control limit')

    def test_acts(self, due):
        if ['act %d %d %d' % tuple(it) for it in self.block.acts] != due:
            raise derived.Broken(self.block.behind(), 'acts')

    def settled(self, records):
        pass

    def bases(self, circuit, options):
        pass


COMMANDS = {'solve': Solve, 'cert': Cert, 'fault': Short, 'ladder': Ladder, 'large': Large, 'large-cert': LargeCert,
            'large-check': LargeCheck}


def run(files, words):
    """The bytes and the status of a command line, and the certified states."""
    it = COMMANDS[words[0]](files, words)
    text, status = it.run()
    return text, status, it.made


def main(path, words):
    top = os.path.dirname(os.path.abspath(path))
    paths = [os.path.join(folder, name) for folder, _, names in os.walk(top) for name in names]
    held = {os.path.relpath(it, top): open(it, 'rb').read() for it in paths}
    held['m.dss'] = open(path, 'rb').read()
    text, status, made = run(held, words[:1] + ['m.dss'] + words[1:])
    sys.stdout.write(text.decode())
    print('status', status, CASES, [(it.steps, it.bound) for it in made])


if __name__ == '__main__':
    main(sys.argv[1], sys.argv[2:] or ['solve'])

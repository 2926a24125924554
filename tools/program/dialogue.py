"""A dialogue with a served cell, of several clients at a time."""
import queue
import threading

from running import Ended


class Dialogue(Ended):
    """A served cell of so many clients. Each client's answers come in the order of its calls."""

    def __init__(self, process, clients):
        super().__init__(process)
        self.answers = {name: queue.SimpleQueue() for name in ('room', *(f'c{client}' for client in range(1, clients + 1)))}
        self.strange, self.telling = [], threading.Lock()
        self.listener = threading.Thread(target=self.listen)

    def __enter__(self):
        super().__enter__()
        self.listener.start()
        return self

    def __exit__(self, *fault):
        self.process.kill()
        self.listener.join()
        super().__exit__(*fault)

    def listen(self):
        """Hands each answer to its client. Behind the last one nobody waits any more."""
        for line in self.process.stdout:
            name, _, answer = line.decode().rstrip('\n').partition(' ')
            if name in self.answers:
                self.answers[name].put(answer)
            else:
                self.strange.append(line)
        for answers in self.answers.values():
            answers.put(None)

    def tell(self, *lines):
        with self.telling:
            self.process.stdin.write(''.join(f'{line}\n' for line in lines).encode())
            self.process.stdin.flush()

    def answer(self, name):
        answer = self.answers[name].get()
        if answer is None:
            raise EOFError('the cell ended')
        return answer

    def ask(self, calls):
        """Has these made, each a client and its call, those of different clients at the same time; the answers, in the order of the calls."""
        self.tell(*(f'{client} {call}' for client, call in calls))
        return [self.answer(client) for client, _ in calls]

    def room(self):
        """The room that is left in the journal, once all lines before are done that no client is asked by."""
        self.tell('room')
        return int(self.answer('room'))

    def end(self):
        """Ends the input. What is told besides answers: lines of nobody, faults, and the exit status."""
        self.process.stdin.close()
        self.listener.join()
        return self.strange, self.process.stderr.read(), self.process.wait()

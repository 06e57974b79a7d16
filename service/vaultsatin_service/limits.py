"""What one request, one process and one epoch may take, so that no document takes what the others need."""

MOST_BODY = 1 << 22  # bytes of a request
MOST_REPLIES = 1 << 24  # bytes of the replies to a request
MOST_RULES = 1 << 20  # bytes of the rules and listeners that each epoch begins with
MOST_SECONDS = 4  # of processor time for a request, and for an epoch: whoever opens the document spends them again
MOST_INPUT = 1 << 24  # bytes of all lines of a run: the program ends where it reads more
MOST_EPOCH_REPLIES = 1 << 26  # bytes
MOST_DEATHS = 3  # of a process by the same request
MOST_NAME = 200  # characters of a user's name
RECENT_REQUESTS = 256  # of a document, that are remembered as done
RECENT_ROWS = 256  # of a run, that are remembered

PAGE_BYTES = 1 << 22  # of rows that are read at once, and those of one more
MOST_BODIES = 1 << 28  # bytes of the requests that a worker is doing, or reads
MOST_WAITING = 100  # requests that wait for a document
MOST_READERS = 10_000  # of a worker

PIECE_SECONDS = 10.0  # without a byte of a reply
REQUEST_SECONDS = 30.0  # with whatever is tried again
BODY_SECONDS = 20.0  # until a request's body is there
TAKE_SECONDS = 30  # in which a client takes nothing of its answer, until it is let go
STATEMENT_SECONDS = 30.0  # until the log does a statement
FORGET_SECONDS = 600.0  # the same, where it looks through all documents
LISTEN_SECONDS = 60.0  # until a new connection listens: who listens doesn't notice that a database has stopped
CLOSE_SECONDS = 20.0  # until all documents are closed, at the end
QUIET_SECONDS = 5.0  # without a request until the state is kept

PROGRAM_MEMORY = 1 << 29  # bytes of address space of the program
NODE_MEMORY = 1 << 30  # bytes of data of node, which reserves far more addresses than it uses

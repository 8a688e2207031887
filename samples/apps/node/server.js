// Answers every request with one line.
require("http").createServer((_, answer) => answer.end("hello from node\n")).listen(process.env.PORT || 8000);

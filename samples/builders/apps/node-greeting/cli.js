#!/usr/bin/env node
// Answers each request with the contents of a file.
const fs = require('fs')
const http = require('http')

const answer = () => `hello from ${process.env.NODE_ENV} node, ${fs.readFileSync(process.argv[2], 'utf8')}`
http.createServer((request, response) => response.end(answer())).listen(process.env.PORT, '127.0.0.1')

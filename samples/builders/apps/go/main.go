// A page that says the message that it was built with.
package main

import (
	_ "embed"
	"fmt"
	"log"
	"net/http"
	"os"

	"example.org/greeting"
)

//go:embed message.txt
var message string

func main() {
	http.HandleFunc("/", func(writer http.ResponseWriter, _ *http.Request) {
		fmt.Fprint(writer, greeting.Of(message))
	})
	log.Fatal(http.ListenAndServe("127.0.0.1:"+os.Getenv("PORT"), nil))
}

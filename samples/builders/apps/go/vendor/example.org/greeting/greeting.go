// Package greeting says hello.
package greeting

// Of is what is said with a message.
func Of(message string) string {
	return "hello from go, " + message
}

# Greets who is named. The tool `shout` comes from a layer.
echo "${GREETING-Goodbye}, $1! (started: ${STARTED-no}, in $PWD)" | shout

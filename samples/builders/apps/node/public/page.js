console.log("loaded")

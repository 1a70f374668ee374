include: "*.view"

explore: cells {}
explore: pairs {}
explore: records {}

view: none { dimension: gone { type: number } }

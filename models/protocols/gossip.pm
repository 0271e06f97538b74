// Gossip: news spreads among replicas by calls, until all who spread it have lost interest.
// Source: Demers and others, Epidemic algorithms for replicated database maintenance (1987); as a model of rumours:
// Maki and Thompson, Mathematical Models and Applications (1973).
// In a step one of the spreaders calls another replica at random. If that one didn't know, both spread the news from then
// on; if it knew, the caller stops. In large groups about a fifth never hear the news.
// Parameters: REPLICAS.
// Try: REPLICAS = 30, or a caller that stops with probability 1/2 only.
dtmc

const int REPLICAS = 15;

formula news = unaware / (REPLICAS-1);

module replicas
  unaware : [0..REPLICAS-1] init REPLICAS-1;
  spreaders : [0..REPLICAS] init 1;

  [] spreaders>0 -> news : (unaware'=unaware-1) & (spreaders'=spreaders+1)
                  + 1-news : (spreaders'=spreaders-1);
endmodule

label "over" = spreaders=0;

/* The beginning and the end of a figure's file. */
#include "drawing.h"

#include <stdio.h>

static void print_style(void) {
  printf("<style>\n"
         "text{font-family:sans-serif;font-size:13px;fill:#222}\n"
         ".title{font-size:15px;font-weight:bold}.name{font-weight:bold}.plan,.unit{font-size:12px;fill:#555}\n"
         ".tick{text-anchor:end;font-size:12px;fill:#555}.mark{text-anchor:middle;font-size:12px;fill:#555}\n"
         ".bound-label{fill:#b3261e}.bound{stroke:#b3261e;stroke-width:1.3;stroke-dasharray:6 4;fill:none}\n"
         ".end-label{fill:#555}.end{stroke:#777;stroke-width:1.3;stroke-dasharray:2 4;fill:none}\n"
         ".frame{fill:none;stroke:#aaa}.zero{stroke:#888;fill:none}.border{stroke:#ddd;fill:none}\n"
         ".curve{stroke:#1f5fa8;stroke-width:1.5;fill:none}.dots{stroke:#1f5fa8;stroke-width:3.6;stroke-linecap:round;fill:none}\n"
         "</style>\n");
}

/* With role and title, who has the figure read aloud hears what it shows. */
void open_figure(int height, const char *title) {
  printf("<svg xmlns=\"http://www.w3.org/2000/svg\" role=\"img\" ");
  printf("width=\"%d\" height=\"%d\" viewBox=\"0 0 %d %d\">\n<title>%s</title>\n", WIDTH, height, WIDTH, height, title);
  print_style();
  printf("<rect width=\"%d\" height=\"%d\" fill=\"#fff\"/>\n", WIDTH, height);
}

void close_figure(void) {
  printf("</svg>\n");
}
